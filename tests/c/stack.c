/* How much stack each call takes. It is made on a stack that was painted, on several volumes, names and pointers, and the
 * lowest byte that has lost its paint is looked for. Counted from the frame of the function that makes the call, so with
 * the arguments that stand on the stack. Prints 'stack CALL BYTES' for each call. */
#define _XOPEN_SOURCE 700

#include "checks.h"

#include <stdio.h>
#include <string.h>
#include <ucontext.h>

/* ---- Volumes: none, one that is not sound, one half full, one full and one with spare clusters, all FD ---- */

enum { NONE, BROKEN, HALF_FULL, FULL, SPARE, VOLUMES, FD_ROOT = 5 * 512 };

static uint8_t volumes[VOLUMES][BM_IMAGE_SIZE_FD], data[BM_IMAGE_SIZE_FD / 2];

#define FD(volume) volumes[volume], BM_IMAGE_SIZE_FD
#define NAME(name) (const uint8_t *)(name), strlen(name)

/* Empty files F0, F1 and so on in all slots but one. */
static void make_files(int volume)
{
    char made[12];
    unsigned n;
    bm_format(FD(volume), BM_KIND_FD);
    for (n = 0; n < BM_SLOTS_MOST - 1; n++) {
        uint8_t open[BM_TABLE_SIZE(1)] = {0};
        sprintf(made, "F%u", n);
        bm_create(FD(volume), open, sizeof open, NAME(made), 0, 18, 5, 29, 3, 9, 1);
    }
}

/* So many clusters written to F0 and F1 by turns: their chains take every other cluster. */
static void write_by_turns(int volume, uint32_t clusters)
{
    uint8_t open[BM_TABLE_SIZE(2)] = {0};
    uint32_t n;
    bm_open(FD(volume), open, sizeof open, NAME("F0"), BM_WRITE);
    bm_open(FD(volume), open, sizeof open, NAME("F1"), BM_WRITE);
    for (n = 0; n < clusters; n++)
        bm_write(FD(volume), open, sizeof open, n % 2, data, 1024);
}

static void make_volumes(void)
{
    make_files(HALF_FULL);
    write_by_turns(HALF_FULL, 177);
    make_files(FULL);
    write_by_turns(FULL, 354);
    /* F0 has 177 clusters and 2C400 bytes, which need as many; 2FFFF need 192, and 20001 need 129. */
    memcpy(volumes[BROKEN], volumes[FULL], BM_IMAGE_SIZE_FD);
    put16(volumes[BROKEN] + FD_ROOT + 28, 0xFFFF);
    memcpy(volumes[SPARE], volumes[FULL], BM_IMAGE_SIZE_FD);
    put16(volumes[SPARE] + FD_ROOT + 28, 1);
    expect(answers(bm_free_space(FD(HALF_FULL), NULL, 0), 0, 177), "half of a volume's clusters are in use");
    expect(answers(bm_free_space(FD(FULL), NULL, 0), 0, 0), "all of another's");
    expect(answers(bm_check(FD(BROKEN), NULL, 0), 5, 0), "a third one is not sound");
    expect(answers(bm_check(FD(SPARE), NULL, 0), 0, 0), "a fourth one, with spare clusters, is sound");
}

/* ---- The calls ---- */

static uint8_t image[BM_IMAGE_SIZE_FD], table[BM_TABLE_SIZE(2)], buffer[BM_IMAGE_SIZE_FD / 2];
static size_t length;
static const char *name;

#define IMAGE image, length
#define TABLE table, sizeof table
#define STAMP 18, 5, 29, 3, 9, 1

#define CALLS(CALL)                                                   \
    CALL(bm_format, (IMAGE, BM_KIND_FD))                              \
    CALL(bm_check, (IMAGE, buffer, BM_COUNTS_SIZE))                   \
    CALL(bm_check_system, (IMAGE, buffer, BM_COUNTS_SIZE))            \
    CALL(bm_free_space, (IMAGE, buffer, BM_SPACE_SIZE))               \
    CALL(bm_entry, (IMAGE, 0, buffer, BM_ENTRY_SIZE))                 \
    CALL(bm_find, (IMAGE, NAME(name), 0, BM_HIDDEN))                  \
    CALL(bm_open, (IMAGE, TABLE, NAME(name), BM_READ))                \
    CALL(bm_create, (IMAGE, TABLE, NAME(name), 0, STAMP))             \
    CALL(bm_read, (IMAGE, TABLE, 0, buffer, sizeof buffer))           \
    CALL(bm_write, (IMAGE, TABLE, 0, data, sizeof data))              \
    CALL(bm_seek, (IMAGE, TABLE, 0, BM_FROM_END, -1))                 \
    CALL(bm_close, (IMAGE, TABLE, 0, STAMP))                          \
    CALL(bm_delete, (IMAGE, TABLE, NAME(name)))                       \
    CALL(bm_rename, (IMAGE, TABLE, NAME(name), NAME("NEW")))          \
    CALL(bm_mode, (IMAGE, TABLE, NAME(name), BM_MODE_SET, BM_HIDDEN)) \
    CALL(bm_view_number, (IMAGE, NAME(name), 1))                      \
    CALL(bm_rescue, (IMAGE, NAME(name), buffer, sizeof buffer))

static uint8_t *frame;
static uint64_t answer;

#define MAKE_CALL(call, arguments)          \
    static void make_##call(void)           \
    {                                       \
        frame = __builtin_frame_address(0); \
        answer = call arguments;            \
    }

CALLS(MAKE_CALL)

#define ROW(call, arguments) {#call, make_##call},

static const struct {
    const char *name;
    void (*make)(void);
} calls[] = {CALLS(ROW)};

/* ---- The paint ---- */

static uint8_t stack[256 * 1024];

static size_t depth_of(void (*make)(void), uint8_t paint)
{
    ucontext_t here, there;
    uint8_t *lowest = stack;
    memset(stack, paint, sizeof stack);
    getcontext(&there);
    there.uc_stack.ss_sp = stack;
    there.uc_stack.ss_size = sizeof stack;
    there.uc_link = &here;
    makecontext(&there, make, 0);
    swapcontext(&here, &there);
    while (*lowest == paint)
        lowest++;
    return (size_t)(frame - lowest);
}

/* Place 0 is open on the file in that slot. */
static void lay_out(int volume, uint8_t slot, unsigned pointer)
{
    memcpy(image, volumes[volume], sizeof image);
    length = volume == NONE ? 0 : sizeof image;
    memset(table, 0, sizeof table);
    table[BM_RECORD_USED] = 1;
    table[BM_RECORD_ACCESS] = BM_READ_AND_WRITE;
    table[BM_RECORD_WRITTEN] = 1;
    table[BM_RECORD_SLOT] = slot;
    put16(table + BM_RECORD_POINTER, pointer);
}

/* The deepest of all volumes, names, pointers and paints; *well is whether the call ended well at least once. The last
 * two names are none: as patterns one is good, one bad. */
static size_t deepest(void (*make)(void), int *well)
{
    static const char *const names[] = {"F0", "F2", "MISSING", "?1*", "**"};
    enum { NAMES = sizeof names / sizeof names[0], NAMED = VOLUMES * NAMES };
    size_t most = 0;
    int n;
    *well = 0;
    for (n = 0; n < NAMED * 2 * 2 * 2; n++) {
        size_t depth;
        name = names[n / VOLUMES % NAMES];
        lay_out(n % VOLUMES, (uint8_t)(n / NAMED % 2 * 3), n / (NAMED * 2) % 2 * 60000u);
        depth = depth_of(make, n / (NAMED * 4) == 0 ? 0xA5 : 0x5A);
        most = depth > most ? depth : most;
        *well = *well || BM_NUMBER(answer) == 0;
    }
    return most;
}

int main(void)
{
    size_t n;
    make_volumes();
    for (n = 0; n < sizeof calls / sizeof calls[0]; n++) {
        int well;
        size_t depth = deepest(calls[n].make, &well);
        printf("stack %s %lu\n", calls[n].name, (unsigned long)depth);
        expect(well && depth > 0 && depth < sizeof stack / 2, calls[n].name);
    }
    return tally();
}
