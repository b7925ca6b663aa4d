/* A volume and an open table on which calls are tried, and beside each what it must be. */
#ifndef DESK_H
#define DESK_H

#include "checks.h"

#include <string.h>

struct desk {
    struct block image, table, wanted_image, wanted_table;
};

/* A desk with that volume and an open table of that many bytes, in which no file is open. */
struct desk new_desk(void (*lay_out)(uint8_t *), size_t table_length);
void put_away(struct desk *desk);

/* One check: the call answered this, and image and table are what they must be. */
void leaves(const struct desk *desk, uint64_t answer, uint32_t number, uint32_t value, const char *what);

/* A record of the open table, in use, as docs/INTERFACE.md lays it out. */
void put_record(uint8_t *table, unsigned place, uint8_t access, uint8_t written, uint8_t slot, uint32_t pointer);

void want_record(struct desk *desk, unsigned place, uint8_t access, uint8_t slot, uint32_t pointer);
void want_no_record(struct desk *desk, unsigned place);

/* A record that stands in the table from now on. */
void set_record(struct desk *desk, unsigned place, uint8_t access, uint8_t written, uint8_t slot, uint32_t pointer);

uint8_t *wanted_slot(struct desk *desk, unsigned slot);

/* Changes a byte of the image, and what it must be. */
void spoil(struct desk *desk, size_t at, uint8_t byte);

/* ---- The calls on a desk, with names and patterns as C strings ---- */

struct stamp {
    uint32_t hour, minute, step, year, month, day;
};

extern const struct stamp morning; /* 1983-09-01 06:40:00 is 3500 and 0721 */
extern const struct stamp evening; /* 1983-09-01 18:05:58 is 90BD and 0721 */

#define IMAGE desk->image.bytes, desk->image.length
#define TABLE desk->table.bytes, desk->table.length
#define NAME(name) (const uint8_t *)(name), strlen(name)

uint64_t find_file(struct desk *desk, const char *pattern, uint32_t slot, uint32_t mask);
uint64_t open_file(struct desk *desk, const char *name, uint32_t access);
uint64_t create_file(struct desk *desk, const char *name, uint32_t attribute, const struct stamp *stamp);
uint64_t read_file(struct desk *desk, uint32_t handle, uint8_t *buffer, size_t length);
uint64_t write_file(struct desk *desk, uint32_t handle, const uint8_t *data, size_t length);
uint64_t seek_file(struct desk *desk, uint32_t handle, uint32_t method, int32_t offset);
uint64_t close_file(struct desk *desk, uint32_t handle, const struct stamp *stamp);
uint64_t delete_file(struct desk *desk, const char *name);
uint64_t rename_file(struct desk *desk, const char *name, const char *new_name);
uint64_t mode_file(struct desk *desk, const char *name, uint32_t function, uint32_t attribute);
uint64_t view_number(struct desk *desk, const char *name, uint32_t offset);
uint64_t rescue_file(struct desk *desk, const char *name, uint8_t *out, size_t length);

/* ---- Volumes ---- */

void lay_out_blank_fe(uint8_t *image);

/* The listing's volume, but that DAY001.LOG has bytes of its own and stands in the clusters 5, 3, 4. */
void lay_out_scattered(uint8_t *image);
uint8_t day_byte(size_t n);

enum { TARE = 0, DAY = 1 }; /* the slots of its two files */

#endif
