/* Runs of calls and single calls from a seed, on each kind of volume, and the disks that a save cut short may leave. */
#include "checks.h"

#include <stdio.h>

enum { RUNS = 80, SINGLES = 120, CALLS_MOST = 40, FILE_MOST = 60000 };

static struct desk desk;
static struct save save;
static uint8_t saved[IMAGE_MOST];

/* The files of the volume that was saved, as open and read give them; very long ones are left out. */
static struct file {
    int there;
    uint8_t bytes[FILE_MOST];
    size_t length;
} files[NAMES];

/* How many disks were tried, on how many of them check finds something, how many files no call had named, and how often
 * one that a call had named was not what it was. */
static unsigned long disks, unsound, others, changed;

/* ---- Before the save ---- */

/* A volume with the tare, and often a file that fills it up to where an entry of the table stands in two sectors; then
 * some calls. Answers how long the tare is. */
static size_t lay_out(const struct kind *kind, uint64_t seed)
{
    static const size_t lengths[] = {0, 1, 40, 511, 512, 513, 1500, 5000};
    size_t tare;
    unsigned n;
    begin(&desk, kind, seed);
    if (below(&desk, 2) == 0)
        add_file(&desk, "A", kind->cluster * (270 + below(&desk, 20) + (kind->last > 341 ? 35 : 0)));
    tare = lengths[below(&desk, sizeof lengths / sizeof *lengths)];
    add_tare(&desk, tare);
    for (n = below(&desk, CALLS_MOST); n > 0; n--)
        any_call(&desk);
    return tare;
}

static void read_files(size_t length)
{
    uint8_t table[BM_TABLE_SIZE(1)];
    size_t n;
    for (n = 0; n < NAMES; n++) {
        struct file *file = &files[n];
        uint64_t answer;
        memset(table, 0, sizeof table);
        answer = bm_open(saved, length, table, sizeof table, NAME(names[n]), BM_READ);
        if (BM_NUMBER(answer) == 0)
            answer = bm_read(saved, length, table, sizeof table, 0, file->bytes, FILE_MOST);
        file->there = BM_NUMBER(answer) == 0 && answer < FILE_MOST;
        file->length = BM_VALUE(answer);
    }
}

static void save_volume(void)
{
    memcpy(saved, desk.image, desk.kind->length);
    memset(desk.named, 0, sizeof desk.named);
    read_files(desk.kind->length);
}

/* ---- After the reset ---- */

/* Whether each file stands on the disk that no call since the save had named. */
static int others_stand(void)
{
    size_t n;
    for (n = 0; n < NAMES; n++) {
        int stands = files[n].there && gives(save.disk, save.length, names[n], files[n].bytes, files[n].length);
        if (!files[n].there)
            continue;
        if (desk.named[n])
            changed += !stands;
        else if (!stands)
            return 0;
        else
            others++;
    }
    return 1;
}

/* Whether the tare and the other files stand on each disk that a save may leave now. */
static int try_disks(uint64_t seed, size_t tare)
{
    unsigned long n, all;
    prepare(&save, saved, desk.image, desk.kind->length);
    all = mixes(&save);
    for (n = 0; n < all; n++) {
        mix(&save, n, &desk);
        disks++;
        unsound += bm_check(save.disk, save.length, NULL, 0) != 0;
        if (!gives_tare(save.disk, save.length, tare) || !others_stand()) {
            printf("kind %02X, seed %lu, disk %lu\n", (unsigned)desk.kind->byte, (unsigned long)seed, n);
            return 0;
        }
    }
    return 1;
}

/* ---- Runs ---- */

static int try_run(const struct kind *kind, uint64_t seed)
{
    size_t tare = lay_out(kind, seed);
    unsigned calls = 1 + below(&desk, CALLS_MOST);
    save_volume();
    while (calls-- > 0)
        any_call(&desk);
    return try_disks(seed, tare);
}

/* One call that changes the volume. */
static int try_single(const struct kind *kind, uint64_t seed)
{
    size_t tare = lay_out(kind, seed);
    do {
        save_volume();
        any_call(&desk);
    } while (memcmp(saved, desk.image, kind->length) == 0);
    return try_disks(seed, tare);
}

static void try_kind(const struct kind *kind, int runs, int (*try)(const struct kind *, uint64_t), const char *what)
{
    char line[120];
    uint64_t seed;
    int good = 1;
    disks = unsound = others = changed = 0;
    for (seed = 0; seed < (uint64_t)runs; seed++)
        good = try(kind, seed) && good;
    sprintf(line, "%02X: %d %s, %lu disks, %lu not sound: rescue gives the tare", (unsigned)kind->byte, runs, what,
            disks, unsound);
    expect(good && unsound > 0, line);
    sprintf(line, ".. and all files that no call named, %lu, but not all others: %lu", others, changed);
    expect(good && others > 0 && changed > 0, line);
}

void try_runs(void)
{
    size_t k;
    puts("-- calls since the last save");
    for (k = 0; k < 4; k++) {
        try_kind(&kinds[k], RUNS, try_run, "runs");
        try_kind(&kinds[k], SINGLES, try_single, "single calls");
    }
}
