#include "save.h"

enum { ALL_MOST = 10, SOME = 1000 };

void prepare(struct save *save, const uint8_t *old, const uint8_t *fresh, size_t length)
{
    size_t at;
    save->old = old;
    save->fresh = fresh;
    save->length = length;
    save->count = 0;
    memcpy(save->disk, old, length);
    for (at = 0; at < length; at += SECTOR)
        if (memcmp(old + at, fresh + at, SECTOR) != 0)
            save->changed[save->count++] = at / SECTOR;
}

unsigned long mixes(const struct save *save)
{
    return save->count <= ALL_MOST ? 1ul << save->count : SOME;
}

static void take(struct save *save, size_t sector, const uint8_t *from)
{
    memcpy(save->disk + SECTOR * sector, from + SECTOR * sector, SECTOR);
}

void mix(struct save *save, unsigned long n, struct desk *desk)
{
    size_t i;
    for (i = 0; i < save->count; i++) {
        int is_new = save->count <= ALL_MOST ? n >> i & 1 : below(desk, 2) == 1;
        take(save, save->changed[i], is_new ? save->fresh : save->old);
    }
}

void mix_these(struct save *save, const size_t *sectors, size_t count)
{
    size_t i;
    for (i = 0; i < save->count; i++)
        take(save, save->changed[i], save->old);
    for (i = 0; i < count; i++)
        take(save, sectors[i], save->fresh);
}
