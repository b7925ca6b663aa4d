#include "checks.h"

#include <stdio.h>
#include <stdlib.h>
#include <string.h>

struct block new_block(size_t length)
{
    struct block block;
    block.all = malloc(length + 2 * GUARD);
    if (block.all == NULL) {
        puts("no memory");
        exit(2);
    }
    block.bytes = block.all + GUARD;
    block.length = length;
    memset(block.all, GUARD_BYTE, length + 2 * GUARD);
    memset(block.bytes, OLD_BYTE, length);
    return block;
}

int all_are(const uint8_t *bytes, size_t length, uint8_t byte)
{
    size_t at;
    for (at = 0; at < length; at++)
        if (bytes[at] != byte)
            return 0;
    return 1;
}

int guards_stand(const struct block *block)
{
    return all_are(block->all, GUARD, GUARD_BYTE) && all_are(block->bytes + block->length, GUARD, GUARD_BYTE);
}

int answers(uint64_t answer, uint32_t number, uint32_t value)
{
    return BM_NUMBER(answer) == number && BM_VALUE(answer) == value;
}

static int is_word(const uint8_t *at, uint32_t word)
{
    return at[0] == (word & 0xFF) && at[1] == (word >> 8 & 0xFF) && at[2] == (word >> 16 & 0xFF) && at[3] == word >> 24;
}

int has_words(const uint8_t *out, uint32_t a, uint32_t b, uint32_t c, uint32_t d)
{
    return is_word(out, a) && is_word(out + 4, b) && is_word(out + 8, c) && is_word(out + 12, d);
}

int has_counts(const uint8_t *out, uint32_t files, uint32_t unused, uint32_t held, uint32_t bad, uint32_t reserved)
{
    return has_words(out, files, unused, held, bad) && is_word(out + 16, reserved);
}

const struct kind kinds[4] = {
    {"FE", BM_KIND_FE, 320, 1, 64, 1, 7, 313, BM_IMAGE_SIZE_FE, BM_SYSTEM_SIZE_FE},
    {"FF", BM_KIND_FF, 640, 1, 112, 2, 10, 315, BM_IMAGE_SIZE_FF, BM_SYSTEM_SIZE_FF},
    {"FC", BM_KIND_FC, 360, 2, 64, 1, 9, 351, BM_IMAGE_SIZE_FC, BM_SYSTEM_SIZE_FC},
    {"FD", BM_KIND_FD, 720, 2, 112, 2, 12, 354, BM_IMAGE_SIZE_FD, BM_SYSTEM_SIZE_FD},
};

void lay_out_blank(const struct kind *kind, uint8_t *image)
{
    size_t copy;
    memset(image, 0xF6, kind->sectors * 512);
    memset(image, 0, kind->first_data * 512);
    for (copy = 0; copy < 2; copy++) {
        uint8_t *table = image + 512 + copy * kind->fat_sectors * 512;
        table[0] = (uint8_t)kind->byte;
        table[1] = 0xFF;
        table[2] = 0xFF;
    }
}

void put16(uint8_t *at, unsigned number)
{
    at[0] = (uint8_t)(number & 0xFF);
    at[1] = (uint8_t)(number >> 8);
}

void put_link(uint8_t *table, uint32_t cluster, unsigned value)
{
    uint8_t *at = table + cluster * 3 / 2;
    unsigned word = at[0] | (unsigned)at[1] << 8;
    put16(at, cluster % 2 == 0 ? (word & 0xF000) | value : (word & 0x000F) | value << 4);
}

void put_table(uint8_t *image, size_t at, const uint8_t *bytes, size_t length)
{
    memcpy(image + COPY_1 + at, bytes, length);
    memcpy(image + COPY_2 + at, bytes, length);
}

void put_entry(uint8_t *slot, const char *name, uint8_t attribute, unsigned time, unsigned start, unsigned size)
{
    memset(slot, 0, 32);
    memcpy(slot, name, 11);
    slot[11] = attribute;
    put16(slot + 22, time);
    put16(slot + 24, 0x0721);
    put16(slot + 26, start);
    put16(slot + 28, size);
}

void lay_out_listing(uint8_t *image)
{
    static const uint8_t table[9] = {0xFE, 0xFF, 0xFF, 0xFF, 0x4F, 0x00, 0x05, 0xF0, 0xFF};
    lay_out_blank(&kinds[0], image);
    memcpy(image + COPY_1, table, sizeof table);
    memcpy(image + COPY_2, table, sizeof table);
    put_entry(image + ROOT, "TARE    KEY", 0x21, 0x3500, 2, 40);
    put_entry(image + ROOT + 32, "DAY001  LOG", 0x20, 0x90BD, 3, 1025);
    memset(image + 7 * 512, 'T', 40);
    memset(image + 8 * 512, 'D', 1025);
}
