#include "wholefile.h"

#include <string.h>

#define IMAGE image->at, image->length
#define TABLE table, sizeof table
#define NAME (const uint8_t *)name, strlen(name)

/* The open table is this function's own, and nothing is written: no close is needed. */
uint32_t fetch_file(const struct bytes *image, const char *name, struct bytes *contents)
{
    uint8_t table[BM_TABLE_SIZE(1)] = {0};
    uint64_t answer = bm_open(IMAGE, TABLE, NAME, BM_READ);
    uint32_t handle = BM_VALUE(answer);
    contents->at = NULL;
    contents->length = 0;
    if (BM_NUMBER(answer) == 0)
        answer = bm_seek(IMAGE, TABLE, handle, BM_FROM_END, 0);
    if (BM_NUMBER(answer) == 0) {
        *contents = new_bytes(BM_VALUE(answer));
        answer = bm_seek(IMAGE, TABLE, handle, BM_FROM_START, 0);
    }
    if (BM_NUMBER(answer) == 0)
        answer = bm_read(IMAGE, TABLE, handle, contents->at, contents->length);
    return BM_NUMBER(answer);
}

uint32_t rescue_file(const struct bytes *image, const char *name, struct bytes *contents)
{
    uint64_t answer;
    *contents = new_bytes(image->length); /* No file of it is longer. */
    answer = bm_rescue(IMAGE, NAME, contents->at, contents->length);
    contents->length = BM_VALUE(answer);
    return BM_NUMBER(answer);
}

uint32_t store_file(const struct bytes *image, const char *name, const struct bytes *contents,
                    const struct bm_stamp *stamp, size_t *stored)
{
    uint8_t table[BM_TABLE_SIZE(1)] = {0};
    /* The marks of the file that is replaced; none, and a value of 0, where there is no such file. */
    uint32_t marks = BM_VALUE(bm_mode(IMAGE, NULL, 0, NAME, BM_MODE_ASK, 0));
    uint64_t answer = bm_create(IMAGE, TABLE, NAME, marks, BM_STAMP(*stamp));
    uint32_t handle = BM_VALUE(answer);
    *stored = 0;
    if (BM_NUMBER(answer) == 0)
        answer = bm_write(IMAGE, TABLE, handle, contents->at, contents->length);
    if (BM_NUMBER(answer) == 0) {
        *stored = BM_VALUE(answer);
        answer = bm_close(IMAGE, TABLE, handle, BM_STAMP(*stamp));
    }
    return BM_NUMBER(answer);
}

uint32_t slot_of(const struct bytes *image, const char *name)
{
    uint8_t table[BM_TABLE_SIZE(1)] = {0};
    bm_open(IMAGE, TABLE, NAME, BM_READ);
    return bm_number_4(table + BM_RECORD_SLOT);
}
