/* What the tests have in common: memory between guards, answers, volumes laid out by bytes. */
#ifndef CHECKS_H
#define CHECKS_H

#include "balladmoor.h"
#include "tally.h"

/* ---- Memory between guards: bytes around it that no call may touch. ---- */

enum { GUARD = 64, GUARD_BYTE = 0xA5, OLD_BYTE = 0x5A };

struct block {
    uint8_t *all;
    uint8_t *bytes;
    size_t length;
};

struct block new_block(size_t length);
int all_are(const uint8_t *bytes, size_t length, uint8_t byte);
int guards_stand(const struct block *block);

/* ---- Answers ---- */

int answers(uint64_t answer, uint32_t number, uint32_t value);

/* Whether out begins with these four words, low byte first. */
int has_words(const uint8_t *out, uint32_t a, uint32_t b, uint32_t c, uint32_t d);

/* Whether out begins with these five counts of check, as words. */
int has_counts(const uint8_t *out, uint32_t files, uint32_t unused, uint32_t held, uint32_t bad, uint32_t reserved);

/* ---- The kinds, from the specification's table ---- */

struct kind {
    const char *name;
    uint32_t byte;
    size_t sectors, fat_sectors;
    uint32_t root_entries, per_cluster;
    size_t first_data;
    uint32_t clusters;
    size_t image_size, system_size;
};

extern const struct kind kinds[4];

/* A blank image as format must leave it, laid out here. */
void lay_out_blank(const struct kind *kind, uint8_t *image);

/* ---- The volume of the specification's listing, of kind FE ---- */

enum { COPY_1 = 512, COPY_2 = 1024, ROOT = 3 * 512 };

void put16(uint8_t *at, unsigned number);

/* Puts a cluster's value into a copy of the table. The word's other four bits are a neighbour's. */
void put_link(uint8_t *table, uint32_t cluster, unsigned value);

/* Puts bytes into both copies of the table, from this byte of each on. */
void put_table(uint8_t *image, size_t at, const uint8_t *bytes, size_t length);

/* A directory entry of 1983-09-01 and these fields; its reserved bytes are 0. */
void put_entry(uint8_t *slot, const char *name, uint8_t attribute, unsigned time, unsigned start, unsigned size);

/* FE with TARE.KEY of 40 bytes in cluster 2 and DAY001.LOG of 1,025 in clusters 3 to 5. */
void lay_out_listing(uint8_t *image);

/* ---- The tests ---- */

void try_volumes(void);
void try_worn(void);
void try_find(void);
void try_files(void);
void try_contents(void);
void try_spare(void);

#endif
