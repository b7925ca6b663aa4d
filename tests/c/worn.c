/* Bad and reserved clusters: check counts each sort by itself, and no call takes one. The table's bytes and all numbers
 * are worked out by hand from document 01: FF7 is bad, FF0 to FF6 are reserved. */
#include "checks.h"

#include <stdio.h>
#include <stdlib.h>
#include <string.h>

/* ---- Counts on the listing's volume: 2 files, 309 clusters free, 4 held ---- */

enum { AT_200 = 300 }; /* the byte of each copy where the values of clusters 200 and 201 begin */

static const struct pair {
    const char *what;
    uint8_t bytes[3]; /* the values of clusters 200 and 201 */
    uint32_t unused, bad, reserved;
} pairs[] = {
    {"FF7 is bad", {0xF7, 0x0F, 0x00}, 308, 1, 0},
    {"FF7 is bad, at an odd cluster", {0x00, 0x70, 0xFF}, 308, 1, 0},
    {"FF7 twice is two bad", {0xF7, 0x7F, 0xFF}, 307, 2, 0},
    {"FF0 is reserved", {0xF0, 0x0F, 0x00}, 308, 0, 1},
    {"FF0 is reserved, at an odd cluster", {0x00, 0x00, 0xFF}, 308, 0, 1},
    {"FF6 is reserved", {0xF6, 0x0F, 0x00}, 308, 0, 1},
    {"FF6 is reserved, at an odd cluster", {0x00, 0x60, 0xFF}, 308, 0, 1},
    {"FF1 and FF2 are reserved", {0xF1, 0x2F, 0xFF}, 307, 0, 2},
    {"FF3 and FF4 are reserved", {0xF3, 0x4F, 0xFF}, 307, 0, 2},
    {"FF5 and FF6 are reserved", {0xF5, 0x6F, 0xFF}, 307, 0, 2},
    {"FF6 and FF7 are one of each", {0xF6, 0x7F, 0xFF}, 307, 1, 1},
    {"FF7 and FF0 are one of each", {0xF7, 0x0F, 0xFF}, 307, 1, 1},
};

static void try_pair(const struct pair *pair, struct block *image)
{
    struct block out = new_block(20);
    lay_out_listing(image->bytes);
    put_table(image->bytes, AT_200, pair->bytes, sizeof pair->bytes);
    expect(answers(bm_check(image->bytes, image->length, out.bytes, 20), 0, 0) &&
               has_counts(out.bytes, 2, pair->unused, 4, pair->bad, pair->reserved),
           pair->what);
    memset(out.bytes, OLD_BYTE, 20);
    expect(answers(bm_check_system(image->bytes, BM_SYSTEM_SIZE_FE, out.bytes, 20), 0, 0) &&
               has_counts(out.bytes, 2, pair->unused, 4, pair->bad, pair->reserved),
           ".. for check_system too");
    expect(answers(bm_free_space(image->bytes, image->length, out.bytes, 20), 0, pair->unused) &&
               has_words(out.bytes, pair->unused, 313, 512, 1),
           ".. and neither is free");
    free(out.all);
}

/* The values beside these eight: FEF means nothing, FF8 is an end, here of no file. */
static void try_neighbours(struct block *image)
{
    static const uint8_t fef[] = {0xEF, 0x0F, 0x00}, ff8[] = {0xF8, 0x0F, 0x00};
    lay_out_listing(image->bytes);
    put_table(image->bytes, AT_200, fef, sizeof fef);
    expect(answers(bm_check(image->bytes, image->length, NULL, 0), 3, 200), "FEF is neither: finding 3");
    put_table(image->bytes, AT_200, ff8, sizeof ff8);
    expect(answers(bm_check(image->bytes, image->length, NULL, 0), 7, 200), "FF8 is neither: finding 7");
}

static void try_values(void)
{
    struct block image = new_block(BM_IMAGE_SIZE_FE);
    size_t n;
    puts("-- bad and reserved clusters");
    for (n = 0; n < sizeof pairs / sizeof pairs[0]; n++)
        try_pair(&pairs[n], &image);
    try_neighbours(&image);
    free(image.all);
}

/* ---- All eight values, and outs of every length ---- */

/* Clusters 200 to 207 have FF0 to FF7: 313 clusters are 301 free, 4 held, 1 bad and 7 reserved. */
static void lay_out_all_eight(uint8_t *image)
{
    static const uint8_t values[12] = {0xF0, 0x1F, 0xFF, 0xF2, 0x3F, 0xFF, 0xF4, 0x5F, 0xFF, 0xF6, 0x7F, 0xFF};
    lay_out_listing(image);
    put_table(image, AT_200, values, sizeof values);
}

typedef uint64_t check_call(const uint8_t *image, size_t image_length, uint8_t *out, size_t out_length);

/* An out below 20 bytes stays as it came; any other gets the counts and keeps its bytes past them. The answer is the
 * same. */
static void try_out_length(const char *name, check_call *call, const struct block *image, size_t length)
{
    struct block out = new_block(length);
    int sound = answers(call(image->bytes, image->length, out.bytes, length), 0, 0);
    char what[64];
    sprintf(what, "%s: out of %u bytes %s", name, (unsigned)length, length < 20 ? "stays" : "gets the counts");
    if (length < 20)
        expect(sound && guards_stand(&out) && all_are(out.bytes, length, OLD_BYTE), what);
    else
        expect(sound && guards_stand(&out) && has_counts(out.bytes, 2, 301, 4, 1, 7) &&
                   all_are(out.bytes + 20, length - 20, OLD_BYTE),
               what);
    free(out.all);
}

static void try_all_eight(void)
{
    struct block image = new_block(BM_IMAGE_SIZE_FE);
    struct block before = new_block(BM_IMAGE_SIZE_FE);
    uint8_t out[BM_COUNTS_SIZE];
    size_t length;
    puts("-- all eight values, and outs of every length");
    lay_out_all_eight(image.bytes);
    lay_out_all_eight(before.bytes);
    for (length = 0; length <= 24; length++) {
        try_out_length("check", bm_check, &image, length);
        try_out_length("check_system", bm_check_system, &image, length);
    }
    bm_check(image.bytes, image.length, out, sizeof out);
    expect(sizeof out == 20 && out[BM_COUNTS_FILES] == 2 && out[BM_COUNTS_FREE] == 301 - 256 &&
               out[BM_COUNTS_HELD] == 4 && out[BM_COUNTS_BAD] == 1 && out[BM_COUNTS_RESERVED] == 7,
           "the counts stand where the header says");
    expect(memcmp(image.bytes, before.bytes, image.length) == 0 && guards_stand(&image), "the image was only read");
    free(image.all);
    free(before.all);
}

/* ---- The first and last clusters of each kind, and a file that takes all others ---- */

/* A cluster's value in a copy of the table: the low 12 bits of a word for an even cluster, the high 12 for an odd. */
static unsigned value_at(const struct kind *kind, const uint8_t *image, size_t copy, uint32_t cluster)
{
    const uint8_t *at = image + 512 * (1 + copy * kind->fat_sectors) + cluster * 3 / 2;
    unsigned word = at[0] | (unsigned)at[1] << 8;
    return cluster % 2 == 0 ? word & 0xFFF : word >> 4;
}

/* Puts it into both. */
static void put_value(const struct kind *kind, uint8_t *image, uint32_t cluster, unsigned value)
{
    put_link(image + 512, cluster, value);
    put_link(image + 512 * (1 + kind->fat_sectors), cluster, value);
}

/* FF6 in the first cluster, FF0 and FF7 in the last two. What stands behind the last is no cluster's. */
static void lay_out_worn(const struct kind *kind, uint8_t *image)
{
    uint32_t last = kind->clusters + 1;
    lay_out_blank(kind, image);
    put_value(kind, image, 2, 0xFF6);
    put_value(kind, image, last - 1, 0xFF0);
    put_value(kind, image, last, 0xFF7);
    put_value(kind, image, last + 1, 0xFF7);
    put_value(kind, image, last + 2, 0xFF0);
}

/* Whether these entries, and the bytes of their clusters, are as they were laid out. */
static int is_kept(const struct kind *kind, const uint8_t *image)
{
    static const unsigned values[] = {0xFF0, 0xFF7, 0xFF7, 0xFF0};
    size_t bytes = kind->per_cluster * 512, data = kind->first_data * 512;
    size_t last_two = data + (kind->clusters - 2) * bytes;
    int kept = all_are(image + data, bytes, 0xF6) && all_are(image + last_two, 2 * bytes, 0xF6);
    uint32_t n, copy;
    for (copy = 0; copy < 2; copy++) {
        kept = kept && value_at(kind, image, copy, 2) == 0xFF6;
        for (n = 0; n < 4; n++)
            kept = kept && value_at(kind, image, copy, kind->clusters + n) == values[n];
    }
    return kept;
}

static int counts_are(const struct block *image, uint32_t files, uint32_t unused, uint32_t held, uint32_t bad,
                      uint32_t reserved)
{
    uint8_t out[20];
    return answers(bm_check(image->bytes, image->length, out, sizeof out), 0, 0) &&
           has_counts(out, files, unused, held, bad, reserved);
}

/* One byte more than the volume has room for, in a file that is deleted again. */
static void try_filled(const struct kind *kind, struct block *image)
{
    uint32_t room = (kind->clusters - 3) * kind->per_cluster * 512;
    struct block data = new_block(room + 1);
    uint8_t table[BM_TABLE_SIZE(1)] = {0};
    const uint8_t name[] = {'F', 'U', 'L', 'L'};
    bm_create(image->bytes, image->length, table, sizeof table, name, sizeof name, 0, 18, 5, 29, 3, 9, 1);
    expect(answers(bm_write(image->bytes, image->length, table, sizeof table, 0, data.bytes, data.length), 0, room),
           "a write has room in all other clusters");
    bm_close(image->bytes, image->length, table, sizeof table, 0, 18, 5, 29, 3, 9, 1);
    expect(counts_are(image, 1, 0, kind->clusters - 3, 1, 2), ".. then none is free, 1 bad, 2 reserved");
    expect(is_kept(kind, image->bytes), ".. and these keep their values and bytes");
    bm_delete(image->bytes, image->length, table, sizeof table, name, sizeof name);
    expect(counts_are(image, 0, kind->clusters - 3, 0, 1, 2), "delete frees the others");
    expect(is_kept(kind, image->bytes), ".. and these keep their values and bytes");
    free(data.all);
}

static void try_worn_kind(const struct kind *kind)
{
    struct block image = new_block(kind->image_size);
    printf("-- a worn %s\n", kind->name);
    lay_out_worn(kind, image.bytes);
    expect(counts_are(&image, 0, kind->clusters - 3, 0, 1, 2), "the last cluster is bad, two are reserved");
    try_filled(kind, &image);
    bm_format(image.bytes, image.length, kind->byte);
    expect(counts_are(&image, 0, kind->clusters, 0, 0, 0), "format makes them free");
    expect(guards_stand(&image), "nothing outside the image");
    free(image.all);
}

void try_worn(void)
{
    size_t n;
    try_values();
    try_all_eight();
    for (n = 0; n < 4; n++)
        try_worn_kind(&kinds[n]);
}
