/* A save cut short: of each sector of 512 bytes the disk has the old bytes or the new ones. */
#ifndef SAVE_H
#define SAVE_H

#include "desk.h"

struct save {
    const uint8_t *old;                  /* the disk at the last save that ended */
    const uint8_t *fresh;                /* the image that is being saved */
    uint8_t disk[IMAGE_MOST];            /* what a reset leaves */
    size_t changed[SECTORS_MOST], count; /* the sectors in which old and fresh differ */
    size_t length;
};

/* Finds the sectors that differ. */
void prepare(struct save *save, const uint8_t *old, const uint8_t *fresh, size_t length);

/* How many disks are tried: all mixes of up to ten changed sectors, else a thousand at random. */
unsigned long mixes(const struct save *save);

/* Makes disk number n of them. */
void mix(struct save *save, unsigned long n, struct desk *desk);

/* Makes the disk on which these sectors, and no others, have the new bytes. */
void mix_these(struct save *save, const size_t *sectors, size_t count);

#endif
