/* Spare clusters: chains that are longer than the sizes need. The table's bytes and all numbers are worked out by hand
 * from documents 01 and 02. After each call the whole image and the whole table are compared with what they must be. */
#include "desk.h"

#include <stdio.h>
#include <stdlib.h>

enum { NEXT = 2 };    /* a slot beside TARE and DAY */
enum { STALE = 'S' }; /* what stands in spare bytes */

/* TARE.KEY is the listing's, in cluster 2. DAY001.LOG has 600 bytes and the clusters 5, 3, 8, 6, the last with FF8: two
 * are spare. NEXT.LOG has no bytes and the clusters 7, 4, the last with FFB. 7 of 313 clusters are held; the others,
 * from 9 on, are free. Cluster n is sector n + 5. */
static void lay_out_spare(uint8_t *image)
{
    static const uint8_t table[15] = {0xFE, 0xFF, 0xFF, 0xFF, 0x8F, 0x00, 0xFB, 0x3F,
                                      0x00, 0xF8, 0x4F, 0x00, 0x06, 0x00, 0x00};
    size_t n;
    lay_out_listing(image);
    put_table(image, 0, table, sizeof table);
    put_entry(image + ROOT + 32 * DAY, "DAY001  LOG", 0x20, 0x90BD, 5, 600);
    put_entry(image + ROOT + 32 * NEXT, "NEXT    LOG", 0x20, 0x90BD, 7, 0);
    memset(image + 8 * 512, STALE, 6 * 512);
    for (n = 0; n < 600; n++)
        image[512 * (n < 512 ? 10 : 8) + n % 512] = day_byte(n);
}

/* The same with no cluster free: 9 to 314 are bad. */
static void lay_out_full(uint8_t *image)
{
    uint32_t cluster;
    lay_out_spare(image);
    for (cluster = 9; cluster <= 314; cluster++) {
        put_link(image + COPY_1, cluster, 0xFF7);
        put_link(image + COPY_2, cluster, 0xFF7);
    }
}

static struct desk new_spare_desk(void)
{
    return new_desk(lay_out_spare, BM_TABLE_SIZE(1));
}

/* ---- Check and free space ---- */

static void try_counts(void)
{
    struct desk d = new_spare_desk();
    uint8_t out[BM_COUNTS_SIZE];
    puts("-- spare clusters: check and free space");
    leaves(&d, bm_check(d.image.bytes, d.image.length, out, sizeof out), 0, 0, "check: sound");
    expect(has_counts(out, 3, 306, 7, 0, 0), "check: held by files 1 + 4 + 2");
    leaves(&d, bm_check_system(d.image.bytes, BM_SYSTEM_SIZE_FE, out, sizeof out), 0, 0, "check_system: sound");
    expect(has_counts(out, 3, 306, 7, 0, 0), "check_system: the same counts");
    leaves(&d, bm_free_space(d.image.bytes, d.image.length, out, sizeof out), 0, 306, "free space: 306");
    expect(has_words(out, 306, 313, 512, 1), "free space: 306 of 313 clusters of 1 sector of 512");
    put_away(&d);
}

/* ---- Read ---- */

static void try_read(void)
{
    struct desk d = new_spare_desk();
    struct block buffer = new_block(2000);
    size_t n;
    int same = 1;
    puts("-- spare clusters: read");
    set_record(&d, 0, 0, 0, DAY, 0);
    want_record(&d, 0, 0, DAY, 600);
    leaves(&d, read_file(&d, 0, buffer.bytes, 2000), 0, 600, "600 bytes: a read ends with the size");
    for (n = 0; n < 600; n++)
        same = same && buffer.bytes[n] == day_byte(n);
    expect(same && all_are(buffer.bytes + 600, 1400, OLD_BYTE) && guards_stand(&buffer), ".. those bytes");
    set_record(&d, 0, 0, 0, NEXT, 0);
    leaves(&d, read_file(&d, 0, buffer.bytes, 2000), 0, 0, "none of an empty file");
    free(buffer.all);
    put_away(&d);
}

/* ---- Write ---- */

enum { ROOM = 158720 }; /* what DAY001.LOG has room for: 4 own clusters and 306 free, of 512 bytes */

/* A byte that is written; none is 0. */
static uint8_t new_byte(size_t n)
{
    return (uint8_t)(n % 241 + 1);
}

/* Writes at the pointer from the first new byte on; count of them must be written. */
static void writes(struct desk *d, uint8_t slot, uint32_t pointer, size_t length, uint32_t count, const char *what)
{
    struct block data = new_block(length);
    size_t n;
    for (n = 0; n < length; n++)
        data.bytes[n] = new_byte(n);
    set_record(d, 0, 2, 0, slot, pointer);
    if (count > 0)
        put_record(d->wanted_table.bytes, 0, 2, 1, slot, pointer + count);
    leaves(d, write_file(d, 0, data.bytes, length), 0, count, what);
    free(data.all);
}

/* From byte `at` of that sector on must stand the new bytes from this one on, so many; or zeros. */
static void want_new(struct desk *d, size_t sector, size_t at, size_t first, size_t count)
{
    size_t n;
    for (n = 0; n < count; n++)
        d->wanted_image.bytes[512 * sector + at + n] = new_byte(first + n);
}

static void want_zeros(struct desk *d, size_t sector, size_t at, size_t count)
{
    memset(d->wanted_image.bytes + 512 * sector + at, 0, count);
}

static void want_size(struct desk *d, unsigned slot, uint32_t size)
{
    put16(wanted_slot(d, slot) + 28, size & 0xFFFF);
    put16(wanted_slot(d, slot) + 30, size >> 16);
}

/* Within the file's own clusters no byte of the table changes, nor the start. */
static void try_fitting(void)
{
    static const uint8_t table[15] = {0xFE, 0xFF, 0xFF, 0xFF, 0x8F, 0x00, 0xFB, 0x3F,
                                      0x00, 0x09, 0x40, 0x00, 0x06, 0xF0, 0xFF};
    struct desk d = new_spare_desk();
    puts("-- spare clusters: write");
    want_new(&d, 8, 88, 0, 10);
    want_size(&d, DAY, 610);
    writes(&d, DAY, 600, 10, 10, "10 bytes at the end, in cluster 3: bytes after the size stay");
    want_zeros(&d, 8, 98, 414);
    want_zeros(&d, 13, 0, 476);
    want_new(&d, 13, 476, 0, 36);
    want_new(&d, 11, 0, 36, 64);
    want_size(&d, DAY, 1600);
    writes(&d, DAY, 1500, 100, 100, "100 bytes past the end, in clusters 8 and 6, with zeros before them");
    want_new(&d, 11, 64, 0, 448);
    want_size(&d, DAY, 2048);
    writes(&d, DAY, 1600, 448, 448, "448 bytes, to the end of the last own cluster, which keeps FF8");
    want_new(&d, 14, 0, 0, 1);
    want_size(&d, DAY, 2049);
    put_table(d.wanted_image.bytes, 0, table, sizeof table);
    writes(&d, DAY, 2048, 1, 1, "1 byte more takes the lowest free cluster, 9, behind cluster 6");
    put_away(&d);
}

/* 2,600 bytes need six clusters: the four own ones, then the two lowest free ones, 9 and 10. */
static void try_spare_first(void)
{
    static const uint8_t table[18] = {0xFE, 0xFF, 0xFF, 0xFF, 0x8F, 0x00, 0xFB, 0x3F, 0x00,
                                      0x09, 0x40, 0x00, 0x06, 0xA0, 0x00, 0xFF, 0x0F, 0x00};
    struct desk d = new_spare_desk();
    want_new(&d, 8, 88, 0, 424);
    want_new(&d, 13, 0, 424, 512);
    want_new(&d, 11, 0, 936, 512);
    want_new(&d, 14, 0, 1448, 512);
    want_new(&d, 15, 0, 1960, 40);
    want_size(&d, DAY, 2600);
    put_table(d.wanted_image.bytes, 0, table, sizeof table);
    writes(&d, DAY, 600, 2000, 2000, "2,000 bytes at the end, in the spare clusters, then in clusters 9 and 10");
    put_away(&d);
}

/* Size 0 with a chain: the start stays. */
static void try_empty(void)
{
    static const uint8_t table[15] = {0xFE, 0xFF, 0xFF, 0xFF, 0x8F, 0x00, 0x09, 0x30,
                                      0x00, 0xF8, 0x4F, 0x00, 0x06, 0xF0, 0xFF};
    struct desk d = new_spare_desk();
    writes(&d, NEXT, 0, 0, 0, "no bytes to an empty file: nothing changes");
    want_new(&d, 12, 0, 0, 10);
    want_size(&d, NEXT, 10);
    writes(&d, NEXT, 0, 10, 10, "10 bytes to an empty file, in its cluster 7");
    want_zeros(&d, 12, 10, 502);
    want_zeros(&d, 9, 0, 8);
    want_new(&d, 9, 8, 0, 10);
    want_size(&d, NEXT, 530);
    writes(&d, NEXT, 520, 10, 10, "10 bytes at 520, in its cluster 4, with zeros before them");
    want_zeros(&d, 9, 18, 490);
    want_new(&d, 9, 508, 0, 4);
    want_new(&d, 14, 0, 4, 6);
    want_size(&d, NEXT, 1030);
    put_table(d.wanted_image.bytes, 0, table, sizeof table);
    writes(&d, NEXT, 1020, 10, 10, "10 bytes at 1,020, the last six in the lowest free cluster, 9");
    put_away(&d);
}

/* ---- Room ---- */

static void want_all_new(struct desk *d)
{
    static const size_t own[4] = {10, 8, 13, 11};
    uint32_t cluster;
    size_t n;
    for (n = 0; n < ROOM / 512; n++)
        want_new(d, n < 4 ? own[n] : n + 10, 0, 512 * n, 512);
    put_link(d->wanted_image.bytes + COPY_1, 6, 9);
    put_link(d->wanted_image.bytes + COPY_2, 6, 9);
    for (cluster = 9; cluster <= 314; cluster++) {
        put_link(d->wanted_image.bytes + COPY_1, cluster, cluster < 314 ? cluster + 1 : 0xFFF);
        put_link(d->wanted_image.bytes + COPY_2, cluster, cluster < 314 ? cluster + 1 : 0xFFF);
    }
    want_size(d, DAY, ROOM);
}

static void try_room(void)
{
    struct desk d = new_spare_desk();
    uint8_t out[BM_COUNTS_SIZE];
    puts("-- spare clusters: room");
    writes(&d, DAY, ROOM, 1, 0, "at the room's end, 4 own clusters and 306 free: nothing changes");
    want_all_new(&d);
    writes(&d, DAY, 0, ROOM + 1, ROOM, "158,720 of 158,721 bytes");
    expect(answers(bm_check(d.image.bytes, d.image.length, out, sizeof out), 0, 0) && has_counts(out, 3, 0, 313, 0, 0),
           ".. none is free, and 313 are held, two of them by NEXT.LOG");
    put_away(&d);
}

/* Where no cluster is free, a file has room for what its own clusters hold, and no other file's are taken. */
static void try_own_room(void)
{
    struct desk d = new_desk(lay_out_full, BM_TABLE_SIZE(1));
    want_new(&d, 8, 88, 0, 424);
    want_new(&d, 13, 0, 424, 512);
    want_new(&d, 11, 0, 936, 512);
    want_size(&d, DAY, 2048);
    writes(&d, DAY, 600, 2000, 1448, "no cluster free: 1,448 of 2,000 bytes fill DAY001.LOG's four");
    writes(&d, DAY, 2048, 1, 0, ".. and then none");
    want_new(&d, 12, 0, 0, 512);
    want_new(&d, 9, 0, 512, 512);
    want_size(&d, NEXT, 1024);
    writes(&d, NEXT, 0, 1025, 1024, ".. and 1,024 of 1,025 fill NEXT.LOG's two");
    put_away(&d);
}

/* ---- Create and delete ---- */

static const uint8_t day_freed[15] = {0xFE, 0xFF, 0xFF, 0xFF, 0x0F, 0x00, 0xFB, 0x0F,
                                      0x00, 0x00, 0x40, 0x00, 0x00, 0x00, 0x00};
static const uint8_t next_freed[15] = {0xFE, 0xFF, 0xFF, 0xFF, 0x8F, 0x00, 0x00, 0x30,
                                       0x00, 0xF8, 0x0F, 0x00, 0x06, 0x00, 0x00};

static void try_created(const char *name, const char *stored, unsigned slot, const uint8_t *table, uint32_t unused)
{
    struct desk d = new_spare_desk();
    put_table(d.wanted_image.bytes, 0, table, 15);
    put_entry(wanted_slot(&d, slot), stored, 0x02, 0x3500, 0, 0);
    want_record(&d, 0, 2, (uint8_t)slot, 0);
    leaves(&d, create_file(&d, name, 0x02, &morning), 0, 0, "create over it: start and size are 0");
    leaves(&d, bm_free_space(d.image.bytes, d.image.length, NULL, 0), 0, unused, ".. and all its clusters are free");
    put_away(&d);
}

static void try_deleted(const char *name, unsigned slot, const uint8_t *table, uint32_t unused)
{
    struct desk d = new_spare_desk();
    put_table(d.wanted_image.bytes, 0, table, 15);
    wanted_slot(&d, slot)[0] = 0xE5;
    leaves(&d, delete_file(&d, name), 0, 0, "delete: first byte E5, all else of the entry stays");
    leaves(&d, bm_free_space(d.image.bytes, d.image.length, NULL, 0), 0, unused, ".. and all its clusters are free");
    put_away(&d);
}

static void try_freed(void)
{
    puts("-- spare clusters: a file of 600 bytes with four clusters");
    try_created("DAY001.LOG", "DAY001  LOG", DAY, day_freed, 310);
    try_deleted("DAY001.LOG", DAY, day_freed, 310);
    puts("-- spare clusters: an empty file with two");
    try_created("NEXT.LOG", "NEXT    LOG", NEXT, next_freed, 308);
    try_deleted("NEXT.LOG", NEXT, next_freed, 308);
}

/* ---- Findings, and rescue beside them ---- */

static void spoil_link(struct desk *d, uint32_t cluster, unsigned value)
{
    uint8_t *images[2] = {d->image.bytes, d->wanted_image.bytes};
    size_t n;
    for (n = 0; n < 2; n++) {
        put_link(images[n] + COPY_1, cluster, value);
        put_link(images[n] + COPY_2, cluster, value);
    }
}

static void spoil_entry(struct desk *d, unsigned slot, unsigned start, unsigned size)
{
    uint8_t *entries[2] = {d->image.bytes + ROOT + 32 * slot, wanted_slot(d, slot)};
    size_t n;
    for (n = 0; n < 2; n++) {
        put16(entries[n] + 26, start);
        put16(entries[n] + 28, size);
    }
}

static void finds(const struct desk *d, uint32_t finding, uint32_t place, const char *what)
{
    leaves(d, bm_check(d->image.bytes, d->image.length, NULL, 0), finding, place, what);
    leaves(d, bm_check_system(d->image.bytes, BM_SYSTEM_SIZE_FE, NULL, 0), finding, place, ".. for check_system too");
}

/* DAY001.LOG's 600 bytes come off the volume. */
static void rescues_day(struct desk *d, const char *what)
{
    struct block out = new_block(2048);
    size_t n;
    int same = 1;
    leaves(d, rescue_file(d, "DAY001.LOG", out.bytes, 2048), 0, 600, what);
    for (n = 0; n < 600; n++)
        same = same && out.bytes[n] == day_byte(n);
    expect(same && all_are(out.bytes + 600, 1448, OLD_BYTE) && guards_stand(&out), ".. those bytes");
    free(out.all);
}

/* Finding 5 of a slot; rescue refuses that file by 5, and gives the other two. */
static void finds_bad_chain(struct desk *d, unsigned slot, const char *what)
{
    uint8_t out[40];
    finds(d, 5, slot, what);
    leaves(d, rescue_file(d, "TARE.KEY", out, sizeof out), 0, 40, ".. TARE.KEY is rescued");
    if (slot == DAY) {
        leaves(d, rescue_file(d, "DAY001.LOG", out, sizeof out), BM_ACCESS_DENIED, 0, ".. DAY001.LOG is refused by 5");
        leaves(d, rescue_file(d, "NEXT.LOG", out, sizeof out), 0, 0, ".. NEXT.LOG is rescued, none of it");
    } else {
        rescues_day(d, ".. DAY001.LOG is rescued");
        leaves(d, rescue_file(d, "NEXT.LOG", out, sizeof out), BM_ACCESS_DENIED, 0, ".. NEXT.LOG is refused by 5");
    }
    put_away(d);
}

static void try_bad_links(void)
{
    static const struct {
        const char *what;
        unsigned slot, cluster, value;
    } links[] = {
        {"a ring behind enough clusters", DAY, 6, 3},
        {"a ring to the start", DAY, 6, 5},
        {"a ring of one cluster", DAY, 6, 6},
        {"a free cluster behind enough", DAY, 6, 9},
        {"value 000 behind enough", DAY, 6, 0x000},
        {"value FF0 behind enough", DAY, 6, 0xFF0},
        {"value FF7 behind enough", DAY, 6, 0xFF7},
        {"an end before there are enough", DAY, 5, 0xFFF},
        {"size 0 and a ring", NEXT, 4, 7},
        {"size 0 and value 000", NEXT, 4, 0x000},
        {"size 0 and value FF7", NEXT, 4, 0xFF7},
    };
    size_t n;
    puts("-- spare clusters: finding 5");
    for (n = 0; n < sizeof links / sizeof links[0]; n++) {
        struct desk d = new_spare_desk();
        spoil_link(&d, links[n].cluster, links[n].value);
        finds_bad_chain(&d, links[n].slot, links[n].what);
    }
}

static void try_bad_entries(void)
{
    static const struct {
        const char *what;
        unsigned slot, start, size;
    } entries[] = {
        {"start 0 with a size", DAY, 0, 600},         {"a byte more than four clusters hold", DAY, 5, 2049},
        {"size 0 with start 1", NEXT, 1, 0},          {"size 0 with a start past the last cluster", NEXT, 315, 0},
        {"size 0 with start 65,535", NEXT, 65535, 0}, {"size 0 with a free cluster", NEXT, 9, 0},
    };
    size_t n;
    for (n = 0; n < sizeof entries / sizeof entries[0]; n++) {
        struct desk d = new_spare_desk();
        spoil_entry(&d, entries[n].slot, entries[n].start, entries[n].size);
        finds_bad_chain(&d, entries[n].slot, entries[n].what);
    }
}

static void try_others(void)
{
    struct desk shared = new_spare_desk(), left = new_spare_desk(), full = new_spare_desk(), torn = new_spare_desk();
    puts("-- spare clusters: other findings, and none");
    spoil_link(&shared, 4, 6);
    finds(&shared, 6, 6, "a spare cluster of two files is finding 6");
    rescues_day(&shared, ".. DAY001.LOG is rescued");
    spoil_entry(&left, NEXT, 0, 0);
    finds(&left, 7, 4, "size 0 and start 0: its clusters are in no chain, finding 7");
    rescues_day(&left, ".. DAY001.LOG is rescued");
    spoil_entry(&full, DAY, 5, 2048);
    finds(&full, 0, 0, "2,048 bytes in four clusters: sound");
    spoil(&torn, COPY_2 + 511, 1);
    finds(&torn, 2, 511, "copies that differ: finding 2");
    rescues_day(&torn, ".. DAY001.LOG is rescued");
    put_away(&shared);
    put_away(&left);
    put_away(&full);
    put_away(&torn);
}

void try_spare(void)
{
    try_counts();
    try_read();
    try_fitting();
    try_spare_first();
    try_empty();
    try_room();
    try_own_room();
    try_freed();
    try_bad_links();
    try_bad_entries();
    try_others();
}
