/* The calls on the files of a volume: open, create, close, delete, rename and file mode; and volumes that every call
 * on files but rescue refuses. After each call the whole image and the whole table are compared with what they must be.
 */
#include "desk.h"

#include <stdio.h>
#include <stdlib.h>

/* What is left of the table when the clusters 3 to 5 are free. */
static void want_day_freed(struct desk *desk)
{
    static const uint8_t table[9] = {0xFE, 0xFF, 0xFF, 0xFF, 0x0F, 0x00, 0x00, 0x00, 0x00};
    memcpy(desk->wanted_image.bytes + COPY_1, table, sizeof table);
    memcpy(desk->wanted_image.bytes + COPY_2, table, sizeof table);
}

/* ---- Open ---- */

static void try_open(void)
{
    struct desk d = new_desk(lay_out_scattered, BM_TABLE_SIZE(2) + 5);
    puts("-- open");
    want_record(&d, 0, 2, DAY, 0);
    leaves(&d, open_file(&d, "DAY001.LOG", BM_READ_AND_WRITE), 0, 0, "the lowest unused place is handle 0");
    want_record(&d, 1, 0, TARE, 0);
    leaves(&d, open_file(&d, "tare.Key", BM_READ), 0, 1, "small letters will do; the next is handle 1");
    leaves(&d, open_file(&d, "DAY001.LOG", BM_READ), BM_TOO_MANY_OPEN, 0, "no unused place: 4");
    d.table.bytes[0] = d.wanted_table.bytes[0] = 0;
    want_record(&d, 0, 1, DAY, 0);
    leaves(&d, open_file(&d, "DAY001.LOG", BM_WRITE), 0, 0, "byte 0 alone makes a place unused; all 16 are stored");
    leaves(&d, open_file(&d, "TARE.KEY", BM_WRITE), BM_ACCESS_DENIED, 0, "a read-only file for writing: 5, before 4");
    leaves(&d, open_file(&d, "TARE.KEY", BM_READ_AND_WRITE), BM_ACCESS_DENIED, 0, ".. for both: 5");
    leaves(&d, open_file(&d, "DAY002.LOG", BM_READ), BM_FILE_NOT_FOUND, 0, "no such file: 2");
    leaves(&d, open_file(&d, "DAY001..LOG", BM_READ), BM_BAD_NAME, 0, "a second dot: 42");
    leaves(&d, open_file(&d, "", 3), BM_INVALID_ACCESS, 0, "access 3: 12, before the name");
    leaves(&d, open_file(&d, "DAY001.LOG", 300), BM_INVALID_ACCESS, 0, "access 300: 12");
    put_away(&d);
}

/* Hidden and system files open too; a label of the name is no file. */
static void try_open_others(void)
{
    struct desk d = new_desk(lay_out_scattered, BM_TABLE_SIZE(2));
    d.image.bytes[ROOT + 32 + 11] = d.wanted_image.bytes[ROOT + 32 + 11] = 0x06;
    put_entry(d.image.bytes + ROOT + 64, "SCALE      ", 0x08, 0, 0, 0);
    put_entry(wanted_slot(&d, 2), "SCALE      ", 0x08, 0, 0, 0);
    want_record(&d, 0, 2, DAY, 0);
    leaves(&d, open_file(&d, "DAY001.LOG", BM_READ_AND_WRITE), 0, 0, "a hidden system file opens");
    leaves(&d, open_file(&d, "SCALE", BM_READ), BM_FILE_NOT_FOUND, 0, "the label is no file: 2");
    leaves(&d, open_file(&d, "SCALE.", BM_READ), BM_FILE_NOT_FOUND, 0, ".. nor with a last dot: 2");
    put_away(&d);
}

/* Only whole records count, and of these the first 16. */
static void try_places(void)
{
    struct desk none = new_desk(lay_out_scattered, 0);
    struct desk piece = new_desk(lay_out_scattered, 15);
    struct desk many = new_desk(lay_out_scattered, BM_TABLE_SIZE(BM_PLACES_MOST + 1));
    uint32_t place;
    leaves(&none, open_file(&none, "TARE.KEY", BM_READ), BM_TOO_MANY_OPEN, 0, "a table of length 0: 4");
    leaves(&piece, open_file(&piece, "TARE.KEY", BM_READ), BM_TOO_MANY_OPEN, 0, "a table of 15 bytes: 4");
    for (place = 0; place < BM_PLACES_MOST; place++) {
        want_record(&many, place, 0, TARE, 0);
        leaves(&many, open_file(&many, "TARE.KEY", BM_READ), 0, place, "one more place of 16");
    }
    leaves(&many, open_file(&many, "TARE.KEY", BM_READ), BM_TOO_MANY_OPEN, 0, "the 17th is none: 4");
    put_away(&none);
    put_away(&piece);
    put_away(&many);
}

/* ---- Create ---- */

static void try_create(void)
{
    struct desk d = new_desk(lay_out_blank_fe, BM_TABLE_SIZE(2));
    puts("-- create");
    put_entry(wanted_slot(&d, 0), "TARE    KEY", 0x01, 0x3500, 0, 0);
    want_record(&d, 0, 2, 0, 0);
    leaves(&d, create_file(&d, "tare.key", 0x01, &morning), 0, 0, "a read-only file, open for both, is handle 0");
    put_entry(wanted_slot(&d, 1), "DAY001  LOG", 0x00, 0x90BD, 0, 0);
    want_record(&d, 1, 2, 1, 0);
    leaves(&d, create_file(&d, "DAY001.LOG", 0x00, &evening), 0, 1, "the next takes slot 1 and is handle 1");
    leaves(&d, create_file(&d, "DAY002.LOG", 0x00, &evening), BM_TOO_MANY_OPEN, 0, "no unused place: 4");
    leaves(&d, create_file(&d, "DAY001.LOG", 0x00, &evening), BM_ACCESS_DENIED, 0, "a file that is open: 5, before 4");
    want_no_record(&d, 1);
    leaves(&d, close_file(&d, 1, &morning), 0, 0, "closed unwritten: the entry stays");
    put_entry(wanted_slot(&d, 1), "DAY001  LOG", 0x27, 0x3500, 0, 0);
    want_record(&d, 1, 2, 1, 0);
    leaves(&d, create_file(&d, "DAY001.LOG", 0x27, &morning), 0, 1, "over a file: its slot, with all four bits");
    want_no_record(&d, 0);
    leaves(&d, close_file(&d, 0, &morning), 0, 0, "the other is closed");
    leaves(&d, create_file(&d, "TARE.KEY", 0x00, &morning), BM_ACCESS_DENIED, 0, "over a read-only file: 5");
    leaves(&d, create_file(&d, "DAY002.LOG", 0x121, &morning), BM_ACCESS_DENIED, 0, "attribute 0121: 5");
    leaves(&d, create_file(&d, "DAY002.LOG", 0x08, &morning), BM_ACCESS_DENIED, 0, "attribute 08: 5");
    leaves(&d, create_file(&d, "DAY002.LOG", 0x40, &morning), BM_ACCESS_DENIED, 0, "attribute 40: 5");
    leaves(&d, create_file(&d, "DAY0000002.LOG", 0x40, &morning), BM_BAD_NAME, 0, "too many characters: 42, before 5");
    put_away(&d);
}

/* A file is emptied: its clusters are free, its data stay, all its entry is new. */
static void try_create_over(void)
{
    struct desk d = new_desk(lay_out_scattered, BM_TABLE_SIZE(2));
    memset(d.image.bytes + ROOT + 32 + 12, 0x77, 10);
    put_entry(wanted_slot(&d, DAY), "DAY001  LOG", 0x02, 0x3500, 0, 0);
    want_day_freed(&d);
    want_record(&d, 0, 2, DAY, 0);
    leaves(&d, create_file(&d, "DAY001.LOG", 0x02, &morning), 0, 0, "a file of 1,025 bytes is emptied");
    leaves(&d, bm_free_space(d.image.bytes, d.image.length, NULL, 0), 0, 312, ".. and its 3 clusters are free");
    put_away(&d);
}

/* "A full root and a new name: 5", also where no place is unused. */
static void try_full_root(void)
{
    struct desk d = new_desk(lay_out_blank_fe, BM_TABLE_SIZE(1));
    char name[12] = "F00        ";
    unsigned slot;
    int all = 1;
    for (slot = 0; slot < 64; slot++) {
        name[1] = (char)('0' + slot / 10);
        name[2] = (char)('0' + slot % 10);
        put_entry(wanted_slot(&d, slot), name, 0x00, 0x3500, 0, 0);
        name[3] = 0;
        all = all && answers(create_file(&d, name, 0x00, &morning), 0, 0) && answers(close_file(&d, 0, &morning), 0, 0);
        name[3] = ' ';
    }
    expect(all, "64 files fill the root");
    leaves(&d, create_file(&d, "ONEMORE", 0x00, &morning), BM_ACCESS_DENIED, 0, "a full root and a new name: 5");
    set_record(&d, 0, 0, 0, 9, 0);
    leaves(&d, create_file(&d, "ONEMORE", 0x00, &morning), BM_ACCESS_DENIED, 0, ".. before 4");
    leaves(&d, create_file(&d, "F10", 0x00, &morning), BM_TOO_MANY_OPEN, 0, "over a file and no unused place: 4");
    put_away(&d);
}

static void try_stamps(void)
{
    static const struct stamp bad[] = {{24, 40, 0, 3, 9, 1},      {6, 60, 0, 3, 9, 1},          {6, 40, 30, 3, 9, 1},
                                       {6, 40, 0, 120, 9, 1},     {6, 40, 0, 3, 0, 1},          {6, 40, 0, 3, 13, 1},
                                       {6, 40, 0, 3, 9, 0},       {6, 40, 0, 3, 9, 32},         {0x100, 40, 0, 3, 9, 1},
                                       {6, 40, 0, 0x10003, 9, 1}, {6, 40, 0, 3, 9, 0x80000001u}};
    struct desk d = new_desk(lay_out_scattered, BM_TABLE_SIZE(2));
    size_t n;
    puts("-- stamps");
    set_record(&d, 0, 2, 0, DAY, 0);
    for (n = 0; n < sizeof bad / sizeof bad[0]; n++) {
        leaves(&d, create_file(&d, "NEW", 0x00, &bad[n]), BM_BAD_STAMP, 0, "create: a stamp out of its ranges: 43");
        leaves(&d, close_file(&d, 0, &bad[n]), BM_BAD_STAMP, 0, "close: the same, written or not");
        leaves(&d, close_file(&d, 1, &bad[n]), BM_BAD_STAMP, 0, "close: .. before 6");
    }
    leaves(&d, create_file(&d, "NEW", 0x40, &bad[0]), BM_BAD_STAMP, 0, "create: .. before 5");
    leaves(&d, create_file(&d, "NEW FILE", 0x00, &bad[0]), BM_BAD_NAME, 0, "create: .. after 42");
    put_away(&d);
}

/* ---- Close ---- */

static void try_close(void)
{
    struct desk d = new_desk(lay_out_scattered, BM_TABLE_SIZE(2));
    puts("-- close");
    set_record(&d, 0, 0, 0, DAY, 77);
    set_record(&d, 1, 2, 1, TARE, 40);
    want_no_record(&d, 0);
    leaves(&d, close_file(&d, 0, &morning), 0, 0, "not written: the place is free, the entry stays");
    leaves(&d, close_file(&d, 0, &morning), BM_INVALID_HANDLE, 0, "closed twice: 6");
    d.image.bytes[ROOT + 11] = 0x03;
    d.wanted_image.bytes[ROOT + 11] = 0x23;
    put16(wanted_slot(&d, TARE) + 22, 0x90BD);
    want_no_record(&d, 1);
    leaves(&d, close_file(&d, 1, &evening), 0, 0, "written: bit 20 and the stamp, on a read-only file too");
    set_record(&d, 0, 2, 1, TARE, 0);
    put16(wanted_slot(&d, TARE) + 22, 0x3500);
    want_no_record(&d, 0);
    leaves(&d, close_file(&d, 0, &morning), 0, 0, "a file that has bit 20 keeps it");
    leaves(&d, close_file(&d, 4000000000u, &morning), BM_INVALID_HANDLE, 0, "handle 4,000,000,000: 6");
    put_away(&d);
}

/* ---- Delete ---- */

static void try_delete(void)
{
    struct desk d = new_desk(lay_out_scattered, BM_TABLE_SIZE(2));
    puts("-- delete");
    set_record(&d, 1, 0, 0, DAY, 0);
    leaves(&d, delete_file(&d, "DAY001.LOG"), BM_ACCESS_DENIED, 0, "a file that is open: 5");
    set_record(&d, 1, 77, 0, DAY, 0);
    leaves(&d, delete_file(&d, "DAY001.LOG"), BM_ACCESS_DENIED, 0, "a used place that is not live names it: 5");
    set_record(&d, 1, 0, 0, 2, 0);
    leaves(&d, delete_file(&d, "TARE.KEY"), BM_ACCESS_DENIED, 0, "a read-only file: 5");
    leaves(&d, delete_file(&d, "TARE"), BM_FILE_NOT_FOUND, 0, "no such file: 2");
    leaves(&d, delete_file(&d, "TARE.KEYS"), BM_BAD_NAME, 0, "four characters after the dot: 42");
    want_day_freed(&d);
    wanted_slot(&d, DAY)[0] = 0xE5;
    leaves(&d, delete_file(&d, "day001.log"), 0, 0, "chain free in both copies, first byte E5, all else stays");
    leaves(&d, bm_free_space(d.image.bytes, d.image.length, NULL, 0), 0, 312, "3 clusters more are free");
    leaves(&d, delete_file(&d, "DAY001.LOG"), BM_FILE_NOT_FOUND, 0, "deleted twice: 2");
    put_entry(wanted_slot(&d, DAY), "NEW        ", 0x00, 0x3500, 0, 0);
    want_record(&d, 0, 2, DAY, 0);
    leaves(&d, create_file(&d, "new", 0x00, &morning), 0, 0, "a new file takes the erased slot, the lowest");
    put_away(&d);
}

/* ---- Rename ---- */

static void try_rename(void)
{
    struct desk d = new_desk(lay_out_scattered, BM_TABLE_SIZE(2));
    puts("-- rename");
    memcpy(wanted_slot(&d, DAY), "DAY-002    ", 11);
    leaves(&d, rename_file(&d, "DAY001.LOG", "day-002."), 0, 0, "the 11 name bytes change, and nothing else");
    leaves(&d, rename_file(&d, "DAY001.LOG", "DAY003.LOG"), BM_FILE_NOT_FOUND, 0, "the old name is gone: 2");
    leaves(&d, rename_file(&d, "DAY-002", "Day-002"), BM_ACCESS_DENIED, 0, "to its own name: 5");
    leaves(&d, rename_file(&d, "DAY-002", "TARE.KEY"), BM_ACCESS_DENIED, 0, "to a name that is taken: 5");
    leaves(&d, rename_file(&d, "TARE.KEY", "TARE.OLD"), BM_ACCESS_DENIED, 0, "a read-only file: 5");
    leaves(&d, rename_file(&d, "NONE", "TARE*.OLD"), BM_BAD_NAME, 0, "a bad new name: 42, before 2");
    leaves(&d, rename_file(&d, ".KEY", "TARE.OLD"), BM_BAD_NAME, 0, "a bad old name: 42");
    set_record(&d, 0, 0, 0, DAY, 0);
    leaves(&d, rename_file(&d, "DAY-002", "DAY003.LOG"), BM_ACCESS_DENIED, 0, "a file that is open: 5");
    put_away(&d);
}

/* ---- File mode ---- */

static void try_mode(void)
{
    struct desk d = new_desk(lay_out_scattered, BM_TABLE_SIZE(2));
    puts("-- file mode");
    leaves(&d, mode_file(&d, "TARE.KEY", BM_MODE_ASK, UINT32_MAX), 0, 0x21, "asked: 21, whatever attribute comes in");
    leaves(&d, mode_file(&d, "TARE.KEY", BM_MODE_SET, 0x121), BM_ACCESS_DENIED, 0, "set to 0121: 5");
    leaves(&d, mode_file(&d, "TARE.KEY", BM_MODE_SET, 0x10), BM_ACCESS_DENIED, 0, "set to 10: 5");
    leaves(&d, mode_file(&d, "TARE.KEY", BM_MODE_SET, 0x80000001u), BM_ACCESS_DENIED, 0, "set to 80000001: 5");
    wanted_slot(&d, TARE)[11] = 0x06;
    leaves(&d, mode_file(&d, "TARE.KEY", BM_MODE_SET, 0x06), 0, 0, "set to 06, on a read-only file too");
    leaves(&d, mode_file(&d, "TARE.KEY", BM_MODE_ASK, 0), 0, 0x06, "asked again: 06");
    leaves(&d, mode_file(&d, "TARE.KEY", 2, 0x06), BM_INVALID_FUNCTION, 0, "function 2: 1");
    leaves(&d, mode_file(&d, "", 256, 0x06), BM_INVALID_FUNCTION, 0, "function 256: 1, before 42");
    leaves(&d, mode_file(&d, "TARE KEY", BM_MODE_ASK, 0), BM_BAD_NAME, 0, "a space in the name: 42");
    leaves(&d, mode_file(&d, "TARE", BM_MODE_SET, 0x08), BM_FILE_NOT_FOUND, 0, "no such file: 2, before 5");
    set_record(&d, 0, 0, 0, TARE, 0);
    leaves(&d, mode_file(&d, "TARE.KEY", BM_MODE_SET, 0x01), BM_ACCESS_DENIED, 0, "set while it is open: 5");
    leaves(&d, mode_file(&d, "TARE.KEY", BM_MODE_ASK, 0), 0, 0x06, "asked while it is open: 06");
    put_away(&d);
}

/* ---- Volumes that every call but rescue refuses ---- */

/* What else came in would be refused too, by a number that is tested later. */
static void refuse_all(struct desk *d, uint32_t number, const char *what)
{
    static const struct stamp bad = {24, 0, 0, 0, 0, 0};
    struct block buffer = new_block(8);
    printf("-- %s\n", what);
    leaves(d, find_file(d, "**", 64, 0), number, 0, "find");
    leaves(d, open_file(d, "*", 3), number, 0, "open");
    leaves(d, create_file(d, "*", 0xFF, &bad), number, 0, "create");
    leaves(d, read_file(d, 99, buffer.bytes, 8), number, 0, "read");
    leaves(d, write_file(d, 99, buffer.bytes, 8), number, 0, "write");
    leaves(d, seek_file(d, 99, 3, -1), number, 0, "seek");
    leaves(d, close_file(d, 99, &bad), number, 0, "close");
    leaves(d, delete_file(d, "*"), number, 0, "delete");
    leaves(d, rename_file(d, "*", "*"), number, 0, "rename");
    leaves(d, mode_file(d, "*", 2, 0xFF), number, 0, "file mode");
    leaves(d, view_number(d, "*", 0), number, 0, "view's number");
    expect(all_are(buffer.bytes, 8, OLD_BYTE) && guards_stand(&buffer), "read leaves the buffer");
    free(buffer.all);
}

static void try_refused_volumes(void)
{
    struct desk d = new_desk(lay_out_scattered, BM_TABLE_SIZE(2));
    spoil(&d, COPY_2 + 400, 1);
    refuse_all(&d, BM_NOT_SOUND, "a volume that is not sound: 41");
    spoil(&d, COPY_1, 0xFD);
    refuse_all(&d, BM_NOT_OF_A_KIND, "an image of no kind: 40");
    put_away(&d);
}

static void try_null_runs(void)
{
    struct desk d = new_desk(lay_out_scattered, BM_TABLE_SIZE(2));
    const struct desk *desk = &d;
    puts("-- NULL with length 0");
    set_record(&d, 0, 2, 0, DAY, 7);
    leaves(&d, bm_find(NULL, 0, NAME("TARE.KEY"), 0, 0), BM_NOT_OF_A_KIND, 0, "find without an image: 40");
    leaves(&d, bm_find(IMAGE, NULL, 0, 0, 0), BM_BAD_NAME, 0, "find without a pattern: 42");
    leaves(&d, bm_open(NULL, 0, TABLE, NAME("TARE.KEY"), 0), BM_NOT_OF_A_KIND, 0, "open without an image: 40");
    leaves(&d, bm_open(IMAGE, NULL, 0, NAME("TARE.KEY"), 0), BM_TOO_MANY_OPEN, 0, "open without a table: 4");
    leaves(&d, bm_open(IMAGE, TABLE, NULL, 0, 0), BM_BAD_NAME, 0, "open without a name: 42");
    leaves(&d, bm_read(IMAGE, TABLE, 0, NULL, 0), 0, 0, "read without a buffer: 0 bytes");
    leaves(&d, bm_write(IMAGE, TABLE, 0, NULL, 0), 0, 0, "write without data: 0 bytes");
    leaves(&d, bm_seek(IMAGE, NULL, 0, 0, 0, 0), BM_INVALID_HANDLE, 0, "seek without a table: 6");
    leaves(&d, bm_delete(IMAGE, NULL, 0, NULL, 0), BM_BAD_NAME, 0, "delete without a name: 42");
    leaves(&d, bm_rename(IMAGE, NULL, 0, NAME("DAY001.LOG"), NULL, 0), BM_BAD_NAME, 0, "rename without a new name: 42");
    leaves(&d, bm_mode(IMAGE, NULL, 0, NAME("DAY001.LOG"), 0, 0), 0, 0x20, "file mode without a table: 20");
    leaves(&d, bm_view_number(NULL, 0, NULL, 0, 0), BM_NOT_OF_A_KIND, 0, "view's number of nothing: 40");
    leaves(&d, bm_rescue(IMAGE, NAME("TARE.KEY"), NULL, 0), 0, 0, "rescue without out: 0 bytes");
    put_away(&d);
}

void try_files(void)
{
    try_open();
    try_open_others();
    try_places();
    try_create();
    try_create_over();
    try_full_root();
    try_stamps();
    try_close();
    try_delete();
    try_rename();
    try_mode();
    try_refused_volumes();
    try_null_runs();
}
