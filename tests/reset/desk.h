/* A volume on which the scale's program works, with its open table; calls on it from a seed. */
#ifndef DESK_H
#define DESK_H

#include "balladmoor.h"

#include <string.h>

enum { SECTOR = 512, SECTORS_MOST = 720, IMAGE_MOST = SECTOR * SECTORS_MOST, PLACES = 4, NAMES = 7 };

struct kind {
    uint32_t byte;
    size_t length, cluster;
    uint32_t last; /* the last cluster */
};

extern const struct kind kinds[4];

/* The names that calls are made with; the first is the tare's. */
extern const char *const names[NAMES];

struct desk {
    const struct kind *kind;
    uint8_t image[IMAGE_MOST], table[BM_TABLE_SIZE(PLACES)];
    size_t opened[PLACES]; /* by which name each place was opened last */
    int named[NAMES];      /* whether a call named that file */
    uint64_t random;
};

#define IMAGE desk->image, desk->kind->length
#define TABLE desk->table, sizeof desk->table
#define NAME(name) (const uint8_t *)(name), strlen(name)
#define STAMP 18, 5, 29, 3, 9, 1

/* ---- Random numbers from the desk's seed ---- */

uint32_t below(struct desk *desk, uint32_t end);

/* ---- The desk ---- */

/* A blank volume of the kind, and a table in which no file is open. */
void begin(struct desk *desk, const struct kind *kind, uint64_t seed);

/* Stops the test: what must hold before anything can be tried does not. */
void insist(int holds, const char *what);

/* Makes an empty file and answers its handle. */
uint32_t make(struct desk *desk, const char *name, uint32_t attribute);
void put(struct desk *desk, uint32_t handle, const uint8_t *bytes, size_t length);
void finish(struct desk *desk, uint32_t handle);

/* Makes a file of so many bytes, which are random, and closes it. */
void add_file(struct desk *desk, const char *name, size_t length);

/* ---- The tare ---- */

/* TARE.KEY of so many bytes, read-only and closed. Pieces of another file are written between its own. */
void add_tare(struct desk *desk, size_t length);

/* Byte n of it. */
uint8_t tare_byte(size_t n);

/* ---- Calls ---- */

/* One call of any sort, which may be refused. None sets the tare's mode. desk->named notes the file that it names. */
void any_call(struct desk *desk);

#endif
