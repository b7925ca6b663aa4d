/* Find: whole searches by pattern and mask, the slot to begin at, and refusals. After each call on a desk the whole image
 * is compared with what it must be. */
#include "desk.h"

#include <stdio.h>
#include <stdlib.h>

/* ---- The volume: the listing's two files, and empty files and other slots behind them ---- */

enum { ANY_FILE = BM_HIDDEN | BM_SYSTEM, SLOTS = 64 /* of FE */ };

static const struct {
    const char *name;
    uint8_t attribute;
} others[] = {
    {"\xE5LD002  LOG", 0x20}, /* 2, erased: it keeps its other bytes */
    {"DAY003  LOG", 0x08},    /* 3, the label: it has the name of a day's file */
    {"DAY     LOG", 0x00},    /* 4 */
    {"DAY004  LOG", 0x02},    /* 5, hidden */
    {"DAY005  LOG", 0x04},    /* 6, system */
    {"DAY006  LOG", 0x06},    /* 7, both */
    {"DAY007  LOG", 0x01},    /* 8, read-only */
    {"DAY\x81 a  LOG", 0x20}, /* 9, with three bytes that no caller can spell */
    {"NOTES      ", 0x20},    /* 10, without an extension */
    {"ABCDEFGH   ", 0x00},    /* 11 */
    {"ABCDEFG    ", 0x00},    /* 12 */
    {"ABCDEFG KEY", 0x27},    /* 13, with all four bits */
    {"        KEY", 0x00},    /* 14, an extension alone: no caller can spell it */
    {"\0AY009  LOG", 0x20},   /* 15, never used: its other bytes mean nothing */
};

static void lay_out_days(uint8_t *image)
{
    size_t n;
    lay_out_listing(image); /* TARE.KEY in slot 0, read-only and archive; DAY001.LOG in slot 1, archive */
    for (n = 0; n < sizeof others / sizeof others[0]; n++)
        put_entry(image + ROOT + 32 * (2 + n), others[n].name, others[n].attribute, 0x3500, 0, 0);
}

/* ---- Whole searches ---- */

struct search {
    const char *pattern;
    uint32_t mask;
    uint8_t slots[SLOTS]; /* all that match, lowest first, and then SLOTS */
    const char *what;
};

/* Each match is answered from the slot after the one before, and after the last there is none. */
static void searches(struct desk *d, const struct search *search)
{
    uint32_t from = 0;
    const uint8_t *slot;
    printf("%s, mask %lX: %s\n", search->pattern, (unsigned long)search->mask, search->what);
    for (slot = search->slots; *slot != SLOTS; slot++) {
        leaves(d, find_file(d, search->pattern, from, search->mask), 0, *slot, ".. the next match");
        from = *slot + 1u;
    }
    leaves(d, find_file(d, search->pattern, from, search->mask), BM_NO_MORE_FILES, 0, ".. no more: 18");
}

static const struct search patterns[] = {
    {"DAY???.LOG", 0, {1, 4, 8, 9, SLOTS}, "? is any byte, padding too, and one that no caller can spell"},
    {"DAY?.LOG", 0, {4, SLOTS}, "DAY.LOG, and nothing longer"},
    {"DAY??1.LOG", 0, {1, SLOTS}, "the byte after ? counts"},
    {"day*.log", 0, {1, 4, 8, 9, SLOTS}, "small letters will do; * fills the part"},
    {"DAY?*.L*", 0, {1, 4, 8, 9, SLOTS}, "? before *, and * in both parts"},
    {"*.KEY", 0, {0, 14, SLOTS}, "also a name that is all padding"},
    {"?.KEY", 0, {14, SLOTS}, ".. which one ? matches, and the longer one not"},
    {"*", 0, {10, 11, 12, SLOTS}, "only names without an extension"},
    {"*.", 0, {10, 11, 12, SLOTS}, "the same"},
    {"*.*", 0, {0, 1, 4, 8, 9, 10, 11, 12, 14, SLOTS}, "all but hidden and system files"},
    {"????????.???", 0, {0, 1, 4, 8, 9, 10, 11, 12, 14, SLOTS}, "the same"},
    {"*.???", 0, {0, 1, 4, 8, 9, 10, 11, 12, 14, SLOTS}, "the same"},
    {"ABCDEFG*", 0, {11, 12, SLOTS}, "* as the eighth character, for one byte"},
    {"ABCDEFG*.KE*", ANY_FILE, {13, SLOTS}, "* as the third of an extension"},
    {"tare.Key", 0, {0, SLOTS}, "a name"},
    {"NOTES", 0, {10, SLOTS}, "a name without an extension"},
    {"NOTES.", 0, {10, SLOTS}, ".. with a last dot"},
    {"NOTE", 0, {SLOTS}, "a name that another begins with"},
    {"DAY003.LOG", ANY_FILE | BM_LABEL, {SLOTS}, "the label is never found"},
    {"?LD002.LOG", ANY_FILE, {SLOTS}, "nor an erased entry"},
    {"?AY009.LOG", ANY_FILE, {SLOTS}, "nor what stands in a slot that was never used"},
};

/* Of the days' files 5 is hidden, 6 system, 7 both, and the others neither. */
static const struct search masks[] = {
    {"DAY*.LOG", 0, {1, 4, 8, 9, SLOTS}, "neither hidden nor system files"},
    {"DAY*.LOG", 0x02, {1, 4, 5, 8, 9, SLOTS}, "hidden ones, but not one that is system too"},
    {"DAY*.LOG", 0x04, {1, 4, 6, 8, 9, SLOTS}, "system ones, but not one that is hidden too"},
    {"DAY*.LOG", 0x06, {1, 4, 5, 6, 7, 8, 9, SLOTS}, "all"},
    {"DAY*.LOG", 0xFF, {1, 4, 5, 6, 7, 8, 9, SLOTS}, "other bits don't matter"},
    {"DAY*.LOG", 0xFFFFFFF9u, {1, 4, 8, 9, SLOTS}, "all the others, without these two"},
    {"DAY*.LOG", 0xFFFFFFFFu, {1, 4, 5, 6, 7, 8, 9, SLOTS}, "all 32"},
    {"DAY*.LOG", 0x200, {1, 4, 8, 9, SLOTS}, "a high bit is no low one"},
    {"*.KEY", 0x21, {0, 14, SLOTS}, "a file with all four bits needs both, and not the other two"},
    {"*.KEY", 0x06, {0, 13, 14, SLOTS}, ".. and shows with them"},
    {"*.*", 0x06, {0, 1, 4, 5, 6, 7, 8, 9, 10, 11, 12, 13, 14, SLOTS}, "all files"},
};

static void try_searches(void)
{
    struct desk d = new_desk(lay_out_days, 0);
    size_t n;
    puts("-- find");
    leaves(&d, bm_check(d.image.bytes, d.image.length, NULL, 0), 0, 0, "the volume is sound");
    for (n = 0; n < sizeof patterns / sizeof patterns[0]; n++)
        searches(&d, &patterns[n]);
    puts("-- find: masks");
    for (n = 0; n < sizeof masks / sizeof masks[0]; n++)
        searches(&d, &masks[n]);
    put_away(&d);
}

/* ---- The slot to begin at ---- */

static void try_slots(void)
{
    struct desk d = new_desk(lay_out_days, 0);
    puts("-- find: slots");
    leaves(&d, find_file(&d, "DAY*.LOG", 0, 0), 0, 1, "from 0: the first match");
    leaves(&d, find_file(&d, "DAY*.LOG", 1, 0), 0, 1, "at a match: itself");
    leaves(&d, find_file(&d, "DAY*.LOG", 2, 0), 0, 4, "one after it: the next");
    leaves(&d, find_file(&d, "DAY*.LOG", 5, 0), 0, 8, "at a file that does not show: the next");
    leaves(&d, find_file(&d, "DAY*.LOG", 9, 0), 0, 9, "at the last match");
    leaves(&d, find_file(&d, "DAY*.LOG", 10, 0), BM_NO_MORE_FILES, 0, "one after the last: 18");
    leaves(&d, find_file(&d, "*.*", 15, ANY_FILE), BM_NO_MORE_FILES, 0, "at a slot that was never used: 18");
    leaves(&d, find_file(&d, "*.*", 63, ANY_FILE), BM_NO_MORE_FILES, 0, "at the last slot: 18");
    leaves(&d, find_file(&d, "*.*", 64, ANY_FILE), BM_NO_MORE_FILES, 0, "at the slot count: 18");
    leaves(&d, find_file(&d, "*.*", 256, ANY_FILE), BM_NO_MORE_FILES, 0, "256 is not slot 0: 18");
    leaves(&d, find_file(&d, "*.*", 65536, ANY_FILE), BM_NO_MORE_FILES, 0, "nor is 65,536: 18");
    leaves(&d, find_file(&d, "*.*", 0x08000000u, ANY_FILE), BM_NO_MORE_FILES, 0, "nor is 2^32 / 32: 18");
    leaves(&d, find_file(&d, "*.*", UINT32_MAX, ANY_FILE), BM_NO_MORE_FILES, 0, "4,294,967,295: 18");
    put_away(&d);
}

static uint64_t find_in(const struct block *image, const char *pattern, uint32_t slot)
{
    return bm_find(image->bytes, image->length, NAME(pattern), slot, 0);
}

/* One file in the last slot, the others erased. The data, right behind it, begin with what looks like another. */
static void try_last_slot(const struct kind *kind)
{
    struct block image = new_block(kind->image_size), wanted = new_block(kind->image_size);
    uint8_t *root = image.bytes + 512 * (1 + 2 * kind->fat_sectors);
    uint32_t slot, last = kind->root_entries - 1;
    lay_out_blank(kind, image.bytes);
    for (slot = 0; slot < last; slot++)
        put_entry(root + 32 * slot, "\xE5LD        ", 0x00, 0x3500, 0, 0);
    put_entry(root + 32 * last, "LAST       ", 0x00, 0x3500, 0, 0);
    put_entry(image.bytes + 512 * kind->first_data, "LAST2      ", 0x00, 0x3500, 0, 0);
    memcpy(wanted.bytes, image.bytes, image.length);
    printf("-- find: the last slot of %s\n", kind->name);
    expect(answers(find_in(&image, "*", 0), 0, last), "the only file, from 0");
    expect(answers(find_in(&image, "LAST?", last), 0, last), "at its slot");
    expect(answers(find_in(&image, "*", last + 1), BM_NO_MORE_FILES, 0), "after it: 18");
    expect(answers(find_in(&image, "LAST2", 0), BM_NO_MORE_FILES, 0), "the first bytes of data are no slot: 18");
    expect(memcmp(image.bytes, wanted.bytes, image.length) == 0 && guards_stand(&image), "the image was only read");
    free(image.all);
    free(wanted.all);
}

/* ---- Refusals ---- */

static const struct {
    const char *pattern, *what;
} bad[] = {
    {"", "no character: 42"},
    {".", "a dot alone: 42"},
    {".LOG", "nothing before the dot: 42"},
    {".*", ".. and * after it: 42"},
    {"**", "* twice: 42"},
    {"*?", "? after *: 42"},
    {"*A", "a letter after *: 42"},
    {"DAY*1.LOG", "* inside a part: 42"},
    {"*.**", "* twice after the dot: 42"},
    {"*.*?", "? after * there: 42"},
    {"DAY.*G", "a letter after * there: 42"},
    {"ABCDEFGH*", "nine characters with *: 42"},
    {"?????????", "nine ?: 42"},
    {"ABCDEFGHI", "nine letters: 42"},
    {"A.LOG*", "four after the dot with *: 42"},
    {"*.????", "four ? there: 42"},
    {"A.LOGS", "four letters there: 42"},
    {"DAY..LOG", "two dots: 42"},
    {"*.*.", "a dot at the end of an extension: 42"},
    {"*.*.*", "three parts: 42"},
    {"DAY\x80.LOG", "byte 80: 42"},
    {"*.LO\xFF", "byte FF after the dot: 42"},
    {"DAY\xBF.LOG", "byte BF, ? with the high bit: 42"},
    {"DAY 1.LOG", "a space: 42"},
    {"*.L ", "a space after the dot: 42"},
    {" ", "a space alone: 42"},
    {"DAY/1.LOG", "a sign that no name has: 42"},
};

static void try_bad_patterns(void)
{
    struct desk d = new_desk(lay_out_days, 0);
    const struct desk *desk = &d;
    size_t n;
    puts("-- find: bad patterns");
    for (n = 0; n < sizeof bad / sizeof bad[0]; n++) {
        leaves(&d, find_file(&d, bad[n].pattern, 0, ANY_FILE), BM_BAD_NAME, 0, bad[n].what);
        leaves(&d, find_file(&d, bad[n].pattern, UINT32_MAX, ANY_FILE), BM_BAD_NAME, 0, ".. before 18");
    }
    leaves(&d, bm_find(IMAGE, (const uint8_t *)"TARE.KEY", 9, 0, 0), BM_BAD_NAME, 0, "a byte 0 at the end: 42");
    put_away(&d);
}

/* The file is there, and would be found before the fault. */
static void try_volumes_refused(void)
{
    struct desk d = new_desk(lay_out_days, 0);
    puts("-- find: volumes that it refuses");
    spoil(&d, ROOT + 32 * 14 + 11, 0x10);
    leaves(&d, find_file(&d, "TARE.KEY", 0, 0), BM_NOT_SOUND, 0, "a directory in slot 14: 41");
    leaves(&d, find_file(&d, "*A", 64, 0), BM_NOT_SOUND, 0, ".. before 42 and 18");
    leaves(&d, bm_find(d.image.bytes, d.image.length - 1, NAME("TARE.KEY"), 0, 0), BM_NOT_OF_A_KIND, 0,
           "an image one byte short: 40, before 41");
    spoil(&d, COPY_1, 0xF9);
    leaves(&d, find_file(&d, "TARE.KEY", 0, 0), BM_NOT_OF_A_KIND, 0, "a byte of no kind: 40");
    put_away(&d);
}

void try_find(void)
{
    size_t n;
    try_searches();
    try_slots();
    for (n = 0; n < 4; n++)
        try_last_slot(&kinds[n]);
    try_bad_patterns();
    try_volumes_refused();
}
