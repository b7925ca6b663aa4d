/* The calls on the bytes of a file: read, write, seek, view's number and rescue. After each call the whole image, the
 * whole table and the buffer are compared with what they must be. */
#include "desk.h"

#include <stdio.h>
#include <stdlib.h>

/* ---- Read ---- */

/* Reads length bytes at the pointer; count of them, the file's from byte pointer on, must come to the front. */
static void reads(struct desk *d, uint32_t pointer, size_t length, size_t count, const char *what)
{
    struct block buffer = new_block(length);
    uint64_t answer;
    size_t n;
    int same = 1;
    want_record(d, 0, 2, DAY, pointer + (uint32_t)count);
    answer = read_file(d, 0, buffer.bytes, length);
    leaves(d, answer, 0, (uint32_t)count, what);
    for (n = 0; n < count; n++)
        same = same && buffer.bytes[n] == day_byte(pointer + n);
    expect(same && all_are(buffer.bytes + count, length - count, OLD_BYTE) && guards_stand(&buffer), ".. those bytes");
    free(buffer.all);
}

static void try_read(void)
{
    struct desk d = new_desk(lay_out_scattered, BM_TABLE_SIZE(2));
    struct block buffer = new_block(8);
    puts("-- read");
    set_record(&d, 0, 2, 0, DAY, 0);
    reads(&d, 0, 600, 600, "600 bytes of clusters 5 and 3");
    reads(&d, 600, 0, 0, "none");
    reads(&d, 600, 600, 425, "only 425 are left, the last in cluster 4");
    reads(&d, 1025, 600, 0, "none at the end");
    set_record(&d, 0, 2, 0, DAY, 4294967295u);
    reads(&d, 4294967295u, 600, 0, "none past the end");
    set_record(&d, 0, 2, 0, DAY, 0);
    reads(&d, 0, 2000, 1025, "all the file");
    set_record(&d, 0, 1, 0, DAY, 0);
    leaves(&d, read_file(&d, 0, buffer.bytes, 8), BM_ACCESS_DENIED, 0, "a file open for writing: 5");
    leaves(&d, read_file(&d, 1, buffer.bytes, 8), BM_INVALID_HANDLE, 0, "a place that is not used: 6");
    leaves(&d, read_file(&d, 2, buffer.bytes, 8), BM_INVALID_HANDLE, 0, "a place that is not there: 6");
    leaves(&d, read_file(&d, 4000000000u, buffer.bytes, 8), BM_INVALID_HANDLE, 0, "handle 4,000,000,000: 6");
    set_record(&d, 0, 3, 0, DAY, 0);
    leaves(&d, read_file(&d, 0, buffer.bytes, 8), BM_INVALID_HANDLE, 0, "a record with access 3: 6");
    set_record(&d, 0, 0, 0, 2, 0);
    leaves(&d, read_file(&d, 0, buffer.bytes, 8), BM_INVALID_HANDLE, 0, "a record of an empty slot: 6");
    expect(all_are(buffer.bytes, 8, OLD_BYTE) && guards_stand(&buffer), "a refusal leaves the buffer");
    free(buffer.all);
    put_away(&d);
}

/* ---- Write ---- */

/* The specification's listing, made by the calls. */
static void try_write_listing(void)
{
    struct desk d = new_desk(lay_out_blank_fe, BM_TABLE_SIZE(2));
    uint8_t data[1025];
    puts("-- write");
    memset(data, 'T', 40);
    expect(answers(create_file(&d, "TARE.KEY", 0x01, &morning), 0, 0), "TARE.KEY is made");
    expect(answers(write_file(&d, 0, data, 40), 0, 40), "40 bytes are written, though it is read-only");
    expect(answers(close_file(&d, 0, &morning), 0, 0), "and it is closed");
    memset(data, 'D', 1025);
    expect(answers(create_file(&d, "DAY001.LOG", 0x00, &evening), 0, 0), "DAY001.LOG is made");
    expect(answers(write_file(&d, 0, data, 1025), 0, 1025), "1,025 bytes are written");
    lay_out_listing(d.wanted_image.bytes);
    leaves(&d, close_file(&d, 0, &evening), 0, 0, "when it is closed, the volume is the listing's to the byte");
    put_away(&d);
}

/* The record of DAY001.LOG after a write. */
static void want_written(struct desk *desk, uint32_t pointer)
{
    put_record(desk->wanted_table.bytes, 0, 1, 1, DAY, pointer);
}

/* Over the end, and then past the end: the bytes between become 0, and the lowest free cluster, 6, is added. */
static void try_write_scattered(void)
{
    static const uint8_t data[10] = {1, 2, 3, 4, 5, 6, 7, 8, 9, 10};
    static const uint8_t table[12] = {0xFE, 0xFF, 0xFF, 0xFF, 0x4F, 0x00, 0x06, 0x30, 0x00, 0xFF, 0x0F, 0x00};
    struct desk d = new_desk(lay_out_scattered, BM_TABLE_SIZE(2));
    uint8_t *wanted = d.wanted_image.bytes;
    set_record(&d, 0, 1, 0, DAY, 1020);
    memcpy(wanted + 8 * 512 + 508, data, 4);
    memcpy(wanted + 9 * 512, data + 4, 6);
    put16(wanted_slot(&d, DAY) + 28, 1030);
    want_written(&d, 1030);
    leaves(&d, write_file(&d, 0, data, 10), 0, 10, "10 bytes at 1,020, in clusters 3 and 4: the size is 1,030");
    set_record(&d, 0, 1, 1, DAY, 2000);
    memset(wanted + 9 * 512 + 6, 0, 506);
    memset(wanted + 11 * 512, 0, 464);
    memcpy(wanted + 11 * 512 + 464, data, 5);
    memcpy(wanted + COPY_1, table, sizeof table);
    memcpy(wanted + COPY_2, table, sizeof table);
    put16(wanted_slot(&d, DAY) + 28, 2005);
    want_written(&d, 2005);
    leaves(&d, write_file(&d, 0, data, 5), 0, 5, "5 bytes at 2,000, with zeros before them, in a new cluster");
    set_record(&d, 0, 1, 1, DAY, 0);
    wanted[10 * 512] = 1;
    want_written(&d, 1);
    leaves(&d, write_file(&d, 0, data, 1), 0, 1, "1 byte at 0: the size stays");
    put_away(&d);
}

static void try_write_nothing(void)
{
    struct desk d = new_desk(lay_out_scattered, BM_TABLE_SIZE(2));
    uint8_t data[1] = {7};
    set_record(&d, 0, 2, 0, DAY, 3000);
    leaves(&d, write_file(&d, 0, data, 0), 0, 0, "no bytes: nothing changes, past the end either");
    set_record(&d, 0, 2, 0, DAY, 312 * 512);
    leaves(&d, write_file(&d, 0, data, 1), 0, 0, "at the room's end, 312 clusters: nothing changes");
    set_record(&d, 0, 2, 0, DAY, 4294967295u);
    leaves(&d, write_file(&d, 0, data, 1), 0, 0, "far past it: the same");
    set_record(&d, 0, 0, 0, DAY, 0);
    leaves(&d, write_file(&d, 0, data, 1), BM_ACCESS_DENIED, 0, "a file open for reading: 5");
    leaves(&d, write_file(&d, 1, data, 1), BM_INVALID_HANDLE, 0, "a place that is not used: 6");
    leaves(&d, write_file(&d, 4000000000u, data, 1), BM_INVALID_HANDLE, 0, "handle 4,000,000,000: 6");
    put_away(&d);
}

/* "A blank FD has 354 free clusters; a write of 362,497 bytes answers 362,496, the next 0." */
static void try_write_all(void)
{
    struct block image = new_block(BM_IMAGE_SIZE_FD), wanted = new_block(BM_IMAGE_SIZE_FD), data = new_block(362497);
    uint8_t table[16] = {0};
    unsigned cluster;
    lay_out_blank(&kinds[3], image.bytes);
    lay_out_blank(&kinds[3], wanted.bytes);
    for (cluster = 2; cluster <= 355; cluster++) {
        put_link(wanted.bytes + 512, cluster, cluster < 355 ? cluster + 1 : 0xFFF);
        put_link(wanted.bytes + 512 * 3, cluster, cluster < 355 ? cluster + 1 : 0xFFF);
    }
    put_entry(wanted.bytes + 512 * 5, "ALL        ", 0x00, 0x3500, 2, 362496 % 65536);
    put16(wanted.bytes + 512 * 5 + 30, 362496 / 65536);
    memset(wanted.bytes + 512 * 12, OLD_BYTE, 362496);
    bm_create(image.bytes, image.length, table, 16, NAME("ALL"), 0, 6, 40, 0, 3, 9, 1);
    expect(answers(bm_write(image.bytes, image.length, table, 16, 0, data.bytes, 362497), 0, 362496),
           "362,496 of 362,497");
    expect(answers(bm_write(image.bytes, image.length, table, 16, 0, data.bytes, 1), 0, 0), "the next: 0");
    expect(memcmp(image.bytes, wanted.bytes, image.length) == 0, "every cluster holds its bytes");
    expect(answers(bm_free_space(image.bytes, image.length, NULL, 0), 0, 0), "none is free");
    expect(guards_stand(&image) && guards_stand(&data), "nothing outside the image");
    free(image.all);
    free(wanted.all);
    free(data.all);
}

/* ---- Seek ---- */

static void seeks(struct desk *d, uint32_t method, int32_t offset, uint32_t pointer, const char *what)
{
    want_record(d, 0, 0, DAY, pointer);
    leaves(d, seek_file(d, 0, method, offset), 0, pointer, what);
}

static void try_seek(void)
{
    struct desk d = new_desk(lay_out_scattered, BM_TABLE_SIZE(2));
    puts("-- seek");
    set_record(&d, 0, 0, 0, DAY, 10);
    leaves(&d, seek_file(&d, 0, BM_FROM_POINTER, -11), BM_INVALID_FUNCTION, 0, "pointer 10, offset -11: 1");
    seeks(&d, BM_FROM_POINTER, -10, 0, "pointer 10, offset -10 gives 0");
    leaves(&d, seek_file(&d, 0, BM_FROM_START, -1), BM_INVALID_FUNCTION, 0, "-1 from the start: 1");
    seeks(&d, BM_FROM_START, 0, 0, "0 from the start");
    seeks(&d, BM_FROM_END, 0, 1025, "0 from the end");
    seeks(&d, BM_FROM_END, -1025, 0, "all the file back");
    leaves(&d, seek_file(&d, 0, BM_FROM_END, -1026), BM_INVALID_FUNCTION, 0, "one byte more: 1");
    seeks(&d, BM_FROM_START, INT32_MAX, 2147483647u, "2,147,483,647 from the start, far past the end");
    seeks(&d, BM_FROM_POINTER, INT32_MAX, 4294967294u, "and as much again");
    seeks(&d, BM_FROM_POINTER, 1, 4294967295u, "4,294,967,295 is still a pointer");
    leaves(&d, seek_file(&d, 0, BM_FROM_POINTER, 1), BM_INVALID_FUNCTION, 0, "one more: 1");
    seeks(&d, BM_FROM_POINTER, INT32_MIN, 2147483647u, "-2,147,483,648 from there");
    leaves(&d, seek_file(&d, 0, BM_FROM_POINTER, INT32_MIN), BM_INVALID_FUNCTION, 0, "and once more: 1");
    leaves(&d, seek_file(&d, 0, 3, 0), BM_INVALID_FUNCTION, 0, "method 3: 1");
    leaves(&d, seek_file(&d, 9, UINT32_MAX, 0), BM_INVALID_FUNCTION, 0, "method 4,294,967,295: 1, before 6");
    leaves(&d, seek_file(&d, 1, BM_FROM_START, -1), BM_INVALID_HANDLE, 0, "a place that is not used: 6, before 1");
    put_away(&d);
}

/* ---- View's number ---- */

static void try_view_number(void)
{
    struct desk d = new_desk(lay_out_scattered, 0);
    puts("-- view's number");
    leaves(&d, view_number(&d, "DAY001.LOG", 0), 0, 0, "0 for a file");
    leaves(&d, view_number(&d, "day001.log", 1024), 0, 0, ".. at its last byte");
    leaves(&d, view_number(&d, "DAY001.LOG", 1025), 0, 0, ".. at its end");
    leaves(&d, view_number(&d, "DAY001.LOG", UINT32_MAX), 0, 0, ".. and far past it");
    leaves(&d, view_number(&d, "DAY002.LOG", 0), BM_FILE_NOT_FOUND, 0, "no such file: 2");
    leaves(&d, view_number(&d, "DAY/002", 0), BM_BAD_NAME, 0, "a name that breaks the rules: 42");
    put_away(&d);
}

/* ---- Rescue ---- */

/* Rescues the day's file into length bytes; count of them, the file's first, must come to the front. */
static void rescues(struct desk *d, const char *name, size_t length, size_t count, const char *what)
{
    struct block out = new_block(length);
    size_t n;
    int same = 1;
    leaves(d, rescue_file(d, name, out.bytes, length), 0, (uint32_t)count, what);
    for (n = 0; n < count; n++)
        same = same && out.bytes[n] == day_byte(n);
    expect(same && all_are(out.bytes + count, length - count, OLD_BYTE) && guards_stand(&out), ".. those bytes");
    free(out.all);
}

static void try_rescue(void)
{
    struct desk d = new_desk(lay_out_scattered, 0);
    struct block out = new_block(8);
    puts("-- rescue");
    rescues(&d, "DAY001.LOG", 2000, 1025, "all the file, off a sound volume");
    rescues(&d, "day001.log", 600, 600, "600 bytes of it");
    rescues(&d, "DAY001.LOG", 0, 0, "none");
    spoil(&d, COPY_2, 0);
    rescues(&d, "DAY001.LOG", 2000, 1025, "all the file, though the copies of the table differ");
    leaves(&d, rescue_file(&d, "DAY/002", out.bytes, 8), BM_BAD_NAME, 0, "a name that breaks the rules: 42");
    leaves(&d, rescue_file(&d, "DAY002.LOG", out.bytes, 8), BM_FILE_NOT_FOUND, 0, "no such file: 2");
    spoil(&d, ROOT + 32 * DAY + 29, 6);
    leaves(&d, rescue_file(&d, "DAY001.LOG", out.bytes, 8), BM_ACCESS_DENIED, 0, "a cluster too few for the size: 5");
    spoil(&d, COPY_1, 0xFD);
    leaves(&d, rescue_file(&d, "DAY001.LOG", out.bytes, 8), BM_NOT_OF_A_KIND, 0, "an image of no kind: 40");
    expect(all_are(out.bytes, 8, OLD_BYTE) && guards_stand(&out), "a refusal leaves out");
    free(out.all);
    put_away(&d);
}

void try_contents(void)
{
    try_read();
    try_write_listing();
    try_write_scattered();
    try_write_nothing();
    try_write_all();
    try_seek();
    try_view_number();
    try_rescue();
}
