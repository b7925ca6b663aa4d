/* Fixed cases: what is worst on a torn disk. */
#include "checks.h"

#include <stdio.h>

enum { COPY_1 = 1, COPY_2 = 3, ROOT = 5, SEAM = 341 }; /* sectors of FC; the entry that stands in two of them */

static struct desk desk;
static struct save save;
static uint8_t saved[IMAGE_MOST];

static void save_volume(void)
{
    memcpy(saved, desk.image, desk.kind->length);
}

/* The value of the entry in two sectors, on the disk. */
static unsigned seam_value(void)
{
    const uint8_t *at = save.disk + SECTOR * COPY_1 + SEAM * 3 / 2;
    return at[0] >> 4 | (unsigned)at[1] << 4;
}

/* The tare stands on all mixes, and on the disk on which these sectors alone are new check finds this. */
static void finds(size_t tare, const size_t *sectors, size_t count, uint32_t finding, uint32_t place, const char *what)
{
    unsigned long n;
    uint64_t answer;
    int stands = 1;
    prepare(&save, saved, desk.image, desk.kind->length);
    for (n = 0; n < mixes(&save); n++) {
        mix(&save, n, &desk);
        stands = stands && gives_tare(save.disk, save.length, tare);
    }
    mix_these(&save, sectors, count);
    answer = bm_check(save.disk, save.length, NULL, 0);
    if (BM_NUMBER(answer) != finding || BM_VALUE(answer) != place)
        printf("finding %u at %u\n", (unsigned)BM_NUMBER(answer), (unsigned)BM_VALUE(answer));
    expect(BM_NUMBER(answer) == finding && BM_VALUE(answer) == place, what);
    expect(stands && gives_tare(save.disk, save.length, tare), ".. rescue gives the tare, there and on all mixes");
}

/* FC, with the tare in clusters 2, 3 and 6, and all clusters up to the one before the seam in use. */
static void fill_to_seam(void)
{
    begin(&desk, &kinds[2], 1);
    add_tare(&desk, 1400);
    add_file(&desk, "A", 512 * (SEAM - 8)); /* 8 to 340 */
}

/* An end becomes a link: FFF to 160. With the second byte alone it is 16F, which is no value at all. */
static void try_end_torn(void)
{
    static const size_t second[] = {COPY_1 + 1, COPY_2 + 1};
    uint32_t handle;
    fill_to_seam();
    add_file(&desk, "DAY001.LOG", 512); /* 341 */
    add_file(&desk, "B.C", 5120);       /* 342 to 351 */
    save_volume();
    handle = (uint32_t)bm_open(desk.image, desk.kind->length, desk.table, sizeof desk.table, NAME("DAY001.LOG"), 1);
    bm_seek(desk.image, desk.kind->length, desk.table, sizeof desk.table, handle, BM_FROM_END, 0);
    put(&desk, handle, (const uint8_t *)"more", 4);
    finds(1400, second, 2, 3, SEAM, "an end torn to 16F: finding 3 at 341");
    expect(seam_value() == 0x16F, ".. that is its value");
}

/* A free cluster becomes a link: 000 to 156. With the first byte alone it is 006, the tare's last cluster. */
static void try_link_torn(void)
{
    static const size_t first[] = {COPY_1, COPY_2, ROOT};
    fill_to_seam();
    save_volume();
    add_file(&desk, "DAY001.LOG", 1024); /* 341, 342 */
    finds(1400, first, 3, 6, 6, "a link torn to 006, into the tare: finding 6 at 6");
    expect(seam_value() == 0x006, ".. that is its value");
}

/* The tare's own entry stands in two sectors, and its neighbour, four of whose bits are in the first byte, is freed. */
static void try_neighbour(void)
{
    static const size_t one_copy[] = {COPY_1};
    uint8_t byte[512];
    uint32_t tare;
    size_t n;
    begin(&desk, &kinds[2], 2);
    tare = make(&desk, names[0], BM_READ_ONLY);
    add_file(&desk, "A", 512 * (SEAM - 3)); /* 2 to 339 */
    add_file(&desk, "DAY001.LOG", 512);     /* 340 */
    for (n = 0; n < sizeof byte; n++)
        byte[n] = tare_byte(n);
    put(&desk, tare, byte, sizeof byte); /* 341 */
    finish(&desk, tare);
    save_volume();
    bm_delete(desk.image, desk.kind->length, desk.table, sizeof desk.table, NAME("DAY001.LOG"));
    finds(512, one_copy, 1, 2, 510, "the neighbour freed in one copy: finding 2 at 510");
    expect(seam_value() == 0xFFF, ".. the tare's entry is whole");
}

/* A file deleted and made again in another sector of the root: on the disk its name stands twice. */
static void try_name_twice(void)
{
    static const size_t first[] = {ROOT};
    char name[] = "F00";
    unsigned n;
    begin(&desk, &kinds[2], 3);
    add_tare(&desk, 40); /* slots 0 and 1 */
    for (n = 0; n < 16; n++) {
        name[1] = (char)('0' + n / 10);
        name[2] = (char)('0' + n % 10);
        add_file(&desk, name, 0); /* slots 2 to 17 */
    }
    add_file(&desk, "DAY001.LOG", 600); /* slot 18 */
    save_volume();
    bm_delete(desk.image, desk.kind->length, desk.table, sizeof desk.table, NAME("F00"));
    bm_delete(desk.image, desk.kind->length, desk.table, sizeof desk.table, NAME("DAY001.LOG"));
    add_file(&desk, "DAY001.LOG", 100); /* slot 2 */
    finds(40, first, 1, 4, 18, "a name in two slots: finding 4 at 18");
}

void try_cases(void)
{
    puts("-- fixed cases");
    try_end_torn();
    try_link_torn();
    try_neighbour();
    try_name_twice();
}
