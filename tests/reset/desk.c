#include "desk.h"

#include <stdio.h>
#include <stdlib.h>

const struct kind kinds[4] = {
    {BM_KIND_FE, BM_IMAGE_SIZE_FE, 512, 314},
    {BM_KIND_FF, BM_IMAGE_SIZE_FF, 1024, 316},
    {BM_KIND_FC, BM_IMAGE_SIZE_FC, 512, 352},
    {BM_KIND_FD, BM_IMAGE_SIZE_FD, 1024, 355},
};

const char *const names[NAMES] = {"TARE.KEY", "NOTES.TXT", "DAY001.LOG", "DAY002.LOG", "DAY003.LOG", "A", "B.C"};

enum { PIECE_MOST = 4000 };

/* ---- Random numbers: the generator known as SplitMix64 ---- */

uint32_t below(struct desk *desk, uint32_t end)
{
    uint64_t word = desk->random += 0x9E3779B97F4A7C15u;
    word = (word ^ word >> 30) * 0xBF58476D1CE4E5B9u;
    word = (word ^ word >> 27) * 0x94D049BB133111EBu;
    return (uint32_t)((word ^ word >> 31) % end);
}

static void fill(struct desk *desk, uint8_t *bytes, size_t length)
{
    size_t n;
    for (n = 0; n < length; n++)
        bytes[n] = (uint8_t)below(desk, 256);
}

/* ---- The desk ---- */

void insist(int holds, const char *what)
{
    if (!holds) {
        printf("FAILED: %s\n0 passed, 1 failed\n", what);
        exit(1);
    }
}

void begin(struct desk *desk, const struct kind *kind, uint64_t seed)
{
    memset(desk, 0, sizeof *desk);
    desk->kind = kind;
    desk->random = seed;
    insist(bm_format(IMAGE, kind->byte) == 0, "format");
}

uint32_t make(struct desk *desk, const char *name, uint32_t attribute)
{
    uint64_t answer = bm_create(IMAGE, TABLE, NAME(name), attribute, STAMP);
    insist(BM_NUMBER(answer) == 0, "create");
    return BM_VALUE(answer);
}

void put(struct desk *desk, uint32_t handle, const uint8_t *bytes, size_t length)
{
    insist(bm_write(IMAGE, TABLE, handle, bytes, length) == length, "write");
}

void finish(struct desk *desk, uint32_t handle)
{
    insist(bm_close(IMAGE, TABLE, handle, STAMP) == 0, "close");
}

void add_file(struct desk *desk, const char *name, size_t length)
{
    static uint8_t bytes[IMAGE_MOST];
    uint32_t handle = make(desk, name, 0);
    fill(desk, bytes, length);
    put(desk, handle, bytes, length);
    finish(desk, handle);
}

/* ---- The tare ---- */

uint8_t tare_byte(size_t n)
{
    return (uint8_t)(n % 251 + 1);
}

void add_tare(struct desk *desk, size_t length)
{
    uint8_t piece[700], other[700];
    uint32_t tare = make(desk, names[0], BM_READ_ONLY), notes = make(desk, names[1], 0);
    size_t done, now, n;
    fill(desk, other, sizeof other);
    for (done = 0; done < length; done += now) {
        now = length - done < sizeof piece ? length - done : sizeof piece;
        for (n = 0; n < now; n++)
            piece[n] = tare_byte(done + n);
        put(desk, tare, piece, now);
        put(desk, notes, other, sizeof other);
    }
    finish(desk, tare);
    finish(desk, notes);
}

/* ---- Calls ---- */

/* Notes by which name a place was opened. */
static void note_opened(struct desk *desk, uint64_t answer, size_t name)
{
    if (BM_NUMBER(answer) == 0)
        desk->opened[BM_VALUE(answer)] = name;
}

static void call_on_name(struct desk *desk)
{
    size_t n = below(desk, NAMES);
    const char *name = names[n];
    uint32_t attribute = below(desk, 4) == 0 ? BM_READ_ONLY : 0;
    desk->named[n] = 1;
    switch (below(desk, 5)) {
    case 0:
        note_opened(desk, bm_create(IMAGE, TABLE, NAME(name), attribute, STAMP), n);
        break;
    case 1:
        note_opened(desk, bm_open(IMAGE, TABLE, NAME(name), below(desk, 3)), n);
        break;
    case 2:
        bm_delete(IMAGE, TABLE, NAME(name));
        break;
    case 3:
        bm_rename(IMAGE, TABLE, NAME(name), NAME(names[below(desk, NAMES)]));
        break;
    default:
        if (n != 0)
            bm_mode(IMAGE, TABLE, NAME(name), BM_MODE_SET, attribute);
    }
}

static void call_on_handle(struct desk *desk)
{
    static uint8_t bytes[PIECE_MOST];
    uint32_t handle = below(desk, PLACES), length = below(desk, PIECE_MOST);
    desk->named[desk->opened[handle]] = 1;
    switch (below(desk, 6)) {
    case 0:
        bm_read(IMAGE, TABLE, handle, bytes, length);
        break;
    case 1:
        bm_seek(IMAGE, TABLE, handle, below(desk, 3), (int32_t)below(desk, 6000) - 2000);
        break;
    case 2:
        bm_close(IMAGE, TABLE, handle, STAMP);
        break;
    default:
        fill(desk, bytes, length);
        bm_write(IMAGE, TABLE, handle, bytes, length);
    }
}

void any_call(struct desk *desk)
{
    if (below(desk, 2) == 0)
        call_on_name(desk);
    else
        call_on_handle(desk);
}
