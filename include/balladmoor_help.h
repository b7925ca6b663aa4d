/* balladmoor_help.h: what most programs want beside the calls of balladmoor.h.
 *
 * A stamp as a struct; what the calls put into `out`, as fields; the entries of a volume one after the other; a sentence
 * for each refusal number. All of it is in this header: nothing more is linked, and no C library is needed. These
 * functions are plain C, tested and not proved.
 */
#ifndef BALLADMOOR_HELP_H
#define BALLADMOOR_HELP_H

#include "balladmoor.h"

#ifdef __cplusplus
extern "C" {
#endif

/* ---- Stamps ---- */

/* The six numbers that bm_create and bm_close take. */
struct bm_stamp {
    uint32_t hour, minute, step; /* 0-23, 0-59, 0-29 (steps of two seconds) */
    uint32_t year, month, day;   /* 0-119 (from 1980), 1-12, 1-31 */
};

/* They as arguments, in their order. */
#define BM_STAMP(stamp) (stamp).hour, (stamp).minute, (stamp).step, (stamp).year, (stamp).month, (stamp).day

/* The stamp of a date and time as people write them: 1983, 9, 1, 18, 5, 58. What is out of range stays out of range, so
 * that the calls refuse it by 43. */
static inline struct bm_stamp bm_stamp_of(uint32_t year, uint32_t month, uint32_t day, uint32_t hour, uint32_t minute,
                                          uint32_t second)
{
    struct bm_stamp stamp = {hour, minute, second / 2, year - 1980, month, day};
    return stamp;
}

/* Whether the time, or the date, is in its ranges. One that another program stored need not be. */
static inline int bm_has_time(const struct bm_stamp *stamp)
{
    return stamp->hour <= 23 && stamp->minute <= 59 && stamp->step <= 29;
}

static inline int bm_has_date(const struct bm_stamp *stamp)
{
    return stamp->year <= 119 && stamp->month >= 1 && stamp->month <= 12 && stamp->day >= 1 && stamp->day <= 31;
}

/* ---- What stands in `out` ---- */

/* A number of two or four bytes, low byte first. */
static inline uint32_t bm_number_2(const uint8_t *at)
{
    return at[0] | (uint32_t)at[1] << 8;
}

static inline uint32_t bm_number_4(const uint8_t *at)
{
    return bm_number_2(at) | bm_number_2(at + 2) << 16;
}

/* What bm_check and bm_check_system put there for a sound volume. */
struct bm_counts {
    uint32_t files;                     /* how many files */
    uint32_t free, held, bad, reserved; /* and how many clusters: free, held by files, bad, reserved */
};

static inline struct bm_counts bm_counts_of(const uint8_t *out)
{
    struct bm_counts counts = {bm_number_4(out + BM_COUNTS_FILES), bm_number_4(out + BM_COUNTS_FREE),
                               bm_number_4(out + BM_COUNTS_HELD), bm_number_4(out + BM_COUNTS_BAD),
                               bm_number_4(out + BM_COUNTS_RESERVED)};
    return counts;
}

/* What bm_free_space puts there. */
struct bm_space {
    uint32_t free, clusters; /* free clusters, all clusters */
    uint32_t cluster_size;   /* bytes of a cluster: those of a sector times sectors per cluster */
};

static inline struct bm_space bm_space_of(const uint8_t *out)
{
    struct bm_space space = {bm_number_4(out), bm_number_4(out + 4), bm_number_4(out + 8) * bm_number_4(out + 12)};
    return space;
}

/* What bm_entry puts there. Of the label only name and attribute mean something. */
struct bm_entry_fields {
    char name[13];      /* TARE.KEY, with a byte 0 at its end; the label's without a dot */
    uint32_t attribute; /* bits such as BM_READ_ONLY; BM_LABEL is the label's */
    struct bm_stamp stamp;
    uint32_t start, size;
    uint8_t stored[BM_ENTRY_SIZE]; /* all of it, as bm_entry put it: for a name that has ? above */
};

/* A byte of a stored name as text. Those that no caller may give are ?, and so no call opens such a name. */
static inline char bm_name_sign(uint8_t byte)
{
    const char *sign = "ABCDEFGHIJKLMNOPQRSTUVWXYZ0123456789$&#@!%'()-{}_";
    while (*sign != '\0' && *sign != (char)byte)
        sign++;
    return *sign != '\0' ? *sign : '?';
}

/* Puts stored bytes as text behind the `at` characters that text has already, without the spaces at their end. Answers
 * how many characters it then has. */
static inline unsigned bm_name_part(const uint8_t *bytes, unsigned length, char *text, unsigned at)
{
    unsigned n;
    while (length > 0 && bytes[length - 1] == ' ')
        length--;
    for (n = 0; n < length; n++)
        text[at + n] = bm_name_sign(bytes[n]);
    return at + length;
}

/* A stored name of 11 bytes as text, which has room for 13. The dot stands only before an extension. */
static inline void bm_name_text(const uint8_t *bytes, char *text)
{
    unsigned dot = bm_name_part(bytes, 8, text, 0);
    unsigned length = bm_name_part(bytes + 8, 3, text, dot + 1);
    text[dot] = '.';
    text[length == dot + 1 ? dot : length] = '\0';
}

/* The label's 11 bytes as text. It may have spaces inside. */
static inline void bm_label_text(const uint8_t *bytes, char *text)
{
    unsigned n, length = bm_name_part(bytes, 11, text, 0);
    for (n = 0; n < length; n++)
        if (bytes[n] == ' ')
            text[n] = ' ';
    text[length] = '\0';
}

/* A stored time word and date word as a stamp. */
static inline struct bm_stamp bm_stored_stamp(uint32_t time, uint32_t date)
{
    struct bm_stamp stamp = {time >> 11 & 31, time >> 5 & 63, time & 31, date >> 9 & 127, date >> 5 & 15, date & 31};
    return stamp;
}

static inline void bm_entry_of(const uint8_t *out, struct bm_entry_fields *entry)
{
    unsigned n;
    for (n = 0; n < BM_ENTRY_SIZE; n++)
        entry->stored[n] = out[n];
    entry->attribute = out[BM_ENTRY_ATTRIBUTE];
    if (entry->attribute & BM_LABEL)
        bm_label_text(out + BM_ENTRY_NAME, entry->name);
    else
        bm_name_text(out + BM_ENTRY_NAME, entry->name);
    entry->stamp = bm_stored_stamp(bm_number_2(out + BM_ENTRY_TIME), bm_number_2(out + BM_ENTRY_DATE));
    entry->start = bm_number_2(out + BM_ENTRY_START);
    entry->size = bm_number_4(out + BM_ENTRY_FILE_SIZE);
}

/* ---- All slots ---- */

/* The entry at the lowest slot from *slot on that has one, of a file or of the label, and moves *slot there. Answers 1,
 * or 0 if there is none, or if the image is of no kind. All entries of a volume:
 *
 *     for (slot = 0; bm_next_entry(image, image_length, &slot, &entry); slot++)
 */
static inline int bm_next_entry(const uint8_t *image, size_t image_length, uint32_t *slot,
                                struct bm_entry_fields *entry)
{
    uint8_t out[BM_ENTRY_SIZE];
    for (; *slot < BM_SLOTS_MOST; ++*slot)
        if (BM_VALUE(bm_entry(image, image_length, *slot, out, sizeof out)) == 1) {
            bm_entry_of(out, entry);
            return 1;
        }
    return 0;
}

/* ---- Refusals ---- */

/* What a refusal number means, and what to do, for the people who use the program. */
static inline const char *bm_sentence(uint32_t number)
{
    switch (number) {
    case 0:
        return "The call ended well.";
    case BM_INVALID_FUNCTION:
        return "There is no such function or place in a file. That is a mistake in this program: please report it.";
    case BM_FILE_NOT_FOUND:
        return "No file of that name is on the disk. Look at the list.";
    case BM_TOO_MANY_OPEN:
        return "Too many files are open. Close one first.";
    case BM_ACCESS_DENIED:
        return "The file is read-only or open, the new name is taken, the directory has no room for another, or an "
               "attribute bit may not be set. Look at the list.";
    case BM_INVALID_HANDLE:
        return "The file is not open. That is a mistake in this program: please report it.";
    case BM_INVALID_ACCESS:
        return "There is no such access. That is a mistake in this program: please report it.";
    case BM_NO_MORE_FILES:
        return "No file matches the pattern, or no further one. Look at the list.";
    case BM_NOT_OF_A_KIND:
        return "This is no whole image of a diskette of 160, 180, 320 or 360 KB. See that it is the right file.";
    case BM_NOT_SOUND:
        return "The disk is broken. Keep a copy of it as it is, and take it to the service bench.";
    case BM_BAD_NAME:
        return "A name has 1 to 8 letters, digits or $&#@!%'()-{}_, then perhaps a dot and up to 3 more; ? and * are "
               "for patterns alone, with * last in its part. Spell it so.";
    case BM_BAD_STAMP:
        return "The date or the time is out of range, or not in the years 1980 to 2099. See that it is right.";
    default:
        return "No such number is known. Header and archive are not of one version: build this program again.";
    }
}

#ifdef __cplusplus
}
#endif

#endif
