#include "desk.h"

#include <stdio.h>
#include <stdlib.h>

struct desk new_desk(void (*lay_out)(uint8_t *), size_t table_length)
{
    struct desk desk;
    desk.image = new_block(BM_IMAGE_SIZE_FE);
    desk.wanted_image = new_block(BM_IMAGE_SIZE_FE);
    desk.table = new_block(table_length);
    desk.wanted_table = new_block(table_length);
    lay_out(desk.image.bytes);
    lay_out(desk.wanted_image.bytes);
    memset(desk.table.bytes, 0, table_length);
    memset(desk.wanted_table.bytes, 0, table_length);
    return desk;
}

void put_away(struct desk *desk)
{
    free(desk->image.all);
    free(desk->wanted_image.all);
    free(desk->table.all);
    free(desk->wanted_table.all);
}

void leaves(const struct desk *desk, uint64_t answer, uint32_t number, uint32_t value, const char *what)
{
    int image = memcmp(desk->image.bytes, desk->wanted_image.bytes, desk->image.length) == 0;
    int table = memcmp(desk->table.bytes, desk->wanted_table.bytes, desk->table.length) == 0;
    int answered = answers(answer, number, value);
    if (!answered)
        printf("answered number %lu, value %lu\n", (unsigned long)BM_NUMBER(answer), (unsigned long)BM_VALUE(answer));
    expect(answered && image && table && guards_stand(&desk->image) && guards_stand(&desk->table), what);
}

void put_record(uint8_t *table, unsigned place, uint8_t access, uint8_t written, uint8_t slot, uint32_t pointer)
{
    uint8_t *at = table + 16 * place;
    memset(at, 0, 16);
    at[0] = 1;
    at[1] = access;
    at[2] = written;
    at[4] = slot;
    put16(at + 8, pointer & 0xFFFF);
    put16(at + 10, pointer >> 16);
}

void want_record(struct desk *desk, unsigned place, uint8_t access, uint8_t slot, uint32_t pointer)
{
    put_record(desk->wanted_table.bytes, place, access, 0, slot, pointer);
}

void want_no_record(struct desk *desk, unsigned place)
{
    memset(desk->wanted_table.bytes + 16 * place, 0, 16);
}

void set_record(struct desk *desk, unsigned place, uint8_t access, uint8_t written, uint8_t slot, uint32_t pointer)
{
    put_record(desk->table.bytes, place, access, written, slot, pointer);
    put_record(desk->wanted_table.bytes, place, access, written, slot, pointer);
}

uint8_t *wanted_slot(struct desk *desk, unsigned slot)
{
    return desk->wanted_image.bytes + ROOT + 32 * slot;
}

void spoil(struct desk *desk, size_t at, uint8_t byte)
{
    desk->image.bytes[at] = desk->wanted_image.bytes[at] = byte;
}

const struct stamp morning = {6, 40, 0, 3, 9, 1};
const struct stamp evening = {18, 5, 29, 3, 9, 1};

#define STAMP stamp->hour, stamp->minute, stamp->step, stamp->year, stamp->month, stamp->day

uint64_t find_file(struct desk *desk, const char *pattern, uint32_t slot, uint32_t mask)
{
    return bm_find(IMAGE, NAME(pattern), slot, mask);
}

uint64_t open_file(struct desk *desk, const char *name, uint32_t access)
{
    return bm_open(IMAGE, TABLE, NAME(name), access);
}

uint64_t create_file(struct desk *desk, const char *name, uint32_t attribute, const struct stamp *stamp)
{
    return bm_create(IMAGE, TABLE, NAME(name), attribute, STAMP);
}

uint64_t read_file(struct desk *desk, uint32_t handle, uint8_t *buffer, size_t length)
{
    return bm_read(IMAGE, TABLE, handle, buffer, length);
}

uint64_t write_file(struct desk *desk, uint32_t handle, const uint8_t *data, size_t length)
{
    return bm_write(IMAGE, TABLE, handle, data, length);
}

uint64_t seek_file(struct desk *desk, uint32_t handle, uint32_t method, int32_t offset)
{
    return bm_seek(IMAGE, TABLE, handle, method, offset);
}

uint64_t close_file(struct desk *desk, uint32_t handle, const struct stamp *stamp)
{
    return bm_close(IMAGE, TABLE, handle, STAMP);
}

uint64_t delete_file(struct desk *desk, const char *name)
{
    return bm_delete(IMAGE, TABLE, NAME(name));
}

uint64_t rename_file(struct desk *desk, const char *name, const char *new_name)
{
    return bm_rename(IMAGE, TABLE, NAME(name), NAME(new_name));
}

uint64_t mode_file(struct desk *desk, const char *name, uint32_t function, uint32_t attribute)
{
    return bm_mode(IMAGE, TABLE, NAME(name), function, attribute);
}

uint64_t view_number(struct desk *desk, const char *name, uint32_t offset)
{
    return bm_view_number(IMAGE, NAME(name), offset);
}

uint64_t rescue_file(struct desk *desk, const char *name, uint8_t *out, size_t length)
{
    return bm_rescue(IMAGE, NAME(name), out, length);
}

void lay_out_blank_fe(uint8_t *image)
{
    lay_out_blank(&kinds[0], image);
}

uint8_t day_byte(size_t n)
{
    return (uint8_t)(n % 251);
}

void lay_out_scattered(uint8_t *image)
{
    static const uint8_t table[9] = {0xFE, 0xFF, 0xFF, 0xFF, 0x4F, 0x00, 0xFF, 0x3F, 0x00};
    static const size_t sectors[3] = {10, 8, 9};
    size_t n;
    lay_out_listing(image);
    memset(image + 8 * 512, 0xF6, 3 * 512);
    memcpy(image + COPY_1, table, sizeof table);
    memcpy(image + COPY_2, table, sizeof table);
    put16(image + ROOT + 32 + 26, 5);
    for (n = 0; n < 1025; n++)
        image[512 * sectors[n / 512] + n % 512] = day_byte(n);
}
