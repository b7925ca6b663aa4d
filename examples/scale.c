/* The scale's program in small: weighings of one day, stored on the volume and shown less the tare.
 *
 *     scale IMAGE DATE TIME [GRAMS..]        scale hive.img 1983-09-01 18:05:58 61250 60900
 *
 * Without weighings on the command line it takes them from standard input, one a line. The tare is the number of grams
 * in TARE.KEY, a read-only file: without it the program refuses to weigh, and never takes a fresh one. The day's file
 * is named by year, month and day, as 19830901.LOG. Each weighing is a line of it: the time and the grams.
 *
 * A reset in the middle of a save may leave a disk that is not sound. The tare is rescued off it (docs/TARE.md), and
 * weighings are shown against it, but not stored.
 *
 * Weighings are stored all or none, and then shown. Where one of them is the last line of the day's file already, none
 * is stored: who is not certain of a weighing may give it again. Exit status: 0 stored, 1 not stored and nothing
 * changed, 2 used wrongly, 3 stored but not certain (not shown, or a cut of power may still undo it).
 */
#define _POSIX_C_SOURCE 200809L

#include "balladmoor_help.h"

#include "imagefile.h"
#include "say.h"
#include "standard.h"
#include "wholefile.h"

#include <ctype.h>
#include <signal.h>
#include <stdio.h>
#include <stdlib.h>
#include <string.h>

const char *const program_name = "scale";

enum status { STORED = 0, NOT_STORED = 1, WRONG_USAGE = 2, NOT_CERTAIN = 3 };

enum { DIGITS_MOST = 7, WEIGHINGS_MOST = 1000, LINE_MOST = 32 };

static const char tare_name[] = "TARE.KEY";

struct day {
    char file[13]; /* 19830901.LOG */
    const char *time;
    struct bm_stamp stamp;
};

struct weighings {
    long grams[WEIGHINGS_MOST];
    size_t count;
};

/* ---- What comes in ---- */

/* Grams: 1 to 7 digits, then perhaps the end of the line. -1 for anything else. */
static long grams_of(const char *text)
{
    size_t digits = strspn(text, "0123456789");
    if (digits < 1 || digits > DIGITS_MOST || text[digits + strspn(text + digits, "\r\n")] != '\0')
        return -1;
    return strtol(text, NULL, 10);
}

/* Whether text has a digit where the pattern has 0, and else the pattern's sign. */
static bool looks_like(const char *pattern, const char *text)
{
    for (; *pattern != '\0'; pattern++, text++)
        if (*pattern == '0' ? !isdigit((unsigned char)*text) : *pattern != *text)
            return false;
    return *text == '\0';
}

static uint32_t number_at(const char *text)
{
    return (uint32_t)atoi(text);
}

static bool take_day(const char *date, const char *time, struct day *day)
{
    if (!looks_like("0000-00-00", date) || !looks_like("00:00:00", time))
        return false;
    day->stamp = bm_stamp_of(number_at(date), number_at(date + 5), number_at(date + 8), number_at(time),
                             number_at(time + 3), number_at(time + 6));
    day->time = time;
    snprintf(day->file, sizeof day->file, "%.4s%.2s%.2s.LOG", date, date + 5, date + 8);
    return true;
}

static bool add_weighing(struct weighings *weighings, const char *text)
{
    long grams = grams_of(text);
    if (grams < 0 || weighings->count == WEIGHINGS_MOST)
        return false;
    weighings->grams[weighings->count++] = grams;
    return true;
}

static bool take_weighings(char **words, struct weighings *weighings)
{
    char line[LINE_MOST];
    bool good = true;
    weighings->count = 0;
    if (*words == NULL)
        while (good && fgets(line, sizeof line, stdin) != NULL)
            good = add_weighing(weighings, line);
    good = good && !ferror(stdin);
    for (; good && *words != NULL; words++)
        good = add_weighing(weighings, *words);
    return good && weighings->count > 0;
}

/* ---- The volume ---- */

#define IMAGE image->at, image->length
#define TABLE table, sizeof table
#define NAME(name) (const uint8_t *)(name), strlen(name)

static void say_refused(const char *name, uint32_t number)
{
    say("%s: %s (refusal %u)", name, bm_sentence(number), (unsigned)number);
}

/* Whether the file that rescue takes for the tare is read-only: of plain files of its name the one in the lowest slot.
 * Asking for its mode would be refused where the disk is not sound. */
static bool is_tare_read_only(const struct bytes *image)
{
    struct bm_entry_fields entry;
    uint32_t slot;
    for (slot = 0; bm_next_entry(IMAGE, &slot, &entry); slot++)
        if ((entry.attribute & BM_LABEL) == 0 && strcmp(entry.name, tare_name) == 0)
            return (entry.attribute & BM_READ_ONLY) != 0;
    return false;
}

/* Finds the tare, in grams, or says why there is none: -1. The disk need not be sound; on a sound one rescue gives what
 * open, read and close do. The tare counts only if it is read-only, for then no call that this program makes can change
 * it (docs/TARE.md). */
static long find_tare(const struct bytes *image)
{
    struct bytes contents;
    uint32_t number = rescue_file(image, tare_name, &contents);
    bool is_text = number == 0 && strlen((const char *)contents.at) == contents.length;
    long tare = is_text ? grams_of((const char *)contents.at) : -1;
    free(contents.at);
    if (number == BM_FILE_NOT_FOUND)
        say("%s: There is no tare on this disk, so nothing is weighed. Put in the disk with this season's tare. "
            "(refusal 2)",
            tare_name);
    else if (number != 0)
        say("%s: The tare's chain of clusters is too short, broken or without end, so nothing is weighed. Put in "
            "another disk with this season's tare. (refusal %u)",
            tare_name, (unsigned)number);
    else if (!is_tare_read_only(image)) {
        say("%s: The tare is not read-only, so it may have been changed. Have it checked, and set its mode to 01.",
            tare_name);
        tare = -1;
    } else if (tare < 0)
        say("%s: This is no number of grams, so nothing is weighed. Take the disk to the service bench.", tare_name);
    return tare;
}

/* A weighing as a line of the day's file; at has room for LINE_MOST bytes. Answers the line's length. */
static size_t put_line(uint8_t *at, const struct day *day, long grams)
{
    return (size_t)sprintf((char *)at, "%.8s %ld\n", day->time, grams);
}

/* Whether the day's file is in the middle of a line: one that was put on the disk by hand may lack its last newline. */
static bool is_unended(const struct bytes *log)
{
    return log->length > 0 && log->at[log->length - 1] != '\n';
}

/* Whether text, a line without its newline, is the last line of the day's file. */
static bool is_last_line(const struct bytes *log, const uint8_t *text, size_t length)
{
    size_t end = is_unended(log) || log->length == 0 ? log->length : log->length - 1;
    if (end < length)
        return false;
    return memcmp(log->at + end - length, text, length) == 0 && (end == length || log->at[end - length - 1] == '\n');
}

/* Whether one of the weighings is the last line of the day's file already, and says so. */
static bool is_stored(const struct bytes *log, const struct day *day, const struct weighings *weighings)
{
    uint8_t line[LINE_MOST];
    size_t n, length = 0;
    bool stored = false;
    for (n = 0; !stored && n < weighings->count; n++) {
        length = put_line(line, day, weighings->grams[n]) - 1;
        stored = is_last_line(log, line, length);
    }
    if (stored)
        say("%s: Its last line is %.*s already, so nothing was stored. If that is another weighing, give this one the "
            "next second.",
            day->file, (int)length, (char *)line);
    return stored;
}

/* Opens the day's file with the pointer at its end; the first weighing of a day makes it. */
static uint64_t open_day(struct bytes *image, uint8_t *table, size_t table_length, const struct day *day, bool *is_new)
{
    uint64_t answer = bm_open(IMAGE, table, table_length, NAME(day->file), BM_READ_AND_WRITE);
    uint32_t handle = BM_VALUE(answer);
    *is_new = BM_NUMBER(answer) == BM_FILE_NOT_FOUND;
    if (*is_new)
        return bm_create(IMAGE, table, table_length, NAME(day->file), 0, BM_STAMP(day->stamp));
    if (BM_NUMBER(answer) == 0)
        answer = bm_seek(IMAGE, table, table_length, handle, BM_FROM_END, 0);
    return BM_NUMBER(answer) == 0 ? handle : answer;
}

/* Number 5 has one meaning for a file that is made, and one for a file that is there. */
static void say_denied(const struct day *day, bool is_new)
{
    if (is_new)
        say("%s: The directory has no room for another name. Delete old days, or take another disk. (refusal 5)",
            day->file);
    else
        say("%s: The file is read-only. If it may be changed, set its mode to 20 first. (refusal 5)", day->file);
}

/* Appends the lines to the day's file. A write that has not room for all is no refusal: its count says so. */
static bool append(struct bytes *image, const struct day *day, const struct bytes *lines)
{
    uint8_t table[BM_TABLE_SIZE(1)] = {0};
    bool is_new;
    uint64_t answer = open_day(image, TABLE, day, &is_new);
    uint32_t handle = BM_VALUE(answer), count = 0;
    if (BM_NUMBER(answer) == 0)
        answer = bm_write(IMAGE, TABLE, handle, lines->at, lines->length);
    if (BM_NUMBER(answer) == 0) {
        count = BM_VALUE(answer);
        answer = bm_close(IMAGE, TABLE, handle, BM_STAMP(day->stamp));
    }
    if (BM_NUMBER(answer) == BM_ACCESS_DENIED)
        say_denied(day, is_new);
    else if (BM_NUMBER(answer) != 0)
        say_refused(day->file, BM_NUMBER(answer));
    else if (count < lines->length)
        say("%s: The disk is full, and none of these weighings was stored. Delete old days, or take another disk.",
            day->file);
    return BM_NUMBER(answer) == 0 && count == lines->length;
}

/* ---- Weighing ---- */

/* Each weighing becomes a line of its own. */
static bool append_all(struct bytes *image, const struct bytes *log, const struct day *day,
                       const struct weighings *weighings)
{
    struct bytes lines = new_bytes(1 + weighings->count * LINE_MOST);
    size_t n, length = 0;
    bool appended;
    if (is_unended(log))
        lines.at[length++] = '\n';
    for (n = 0; n < weighings->count; n++)
        length += put_line(lines.at + length, day, weighings->grams[n]);
    lines.length = length;
    appended = append(image, day, &lines);
    free(lines.at);
    return appended;
}

/* Shows the weighings. The answer is whether that was done. */
static bool show(const struct day *day, const struct weighings *weighings, long tare)
{
    size_t n;
    for (n = 0; n < weighings->count; n++)
        printf("%s %ld g, net %ld g\n", day->time, weighings->grams[n], weighings->grams[n] - tare);
    return fflush(stdout) == 0 && !ferror(stdout);
}

/* Shows weighings that are stored, and says what is not certain. */
static enum status show_stored(const struct day *day, const struct weighings *weighings, long tare, enum saved saved)
{
    enum status status = STORED;
    if (!show(day, weighings, tare)) {
        say("%s: The weighings are stored, but could not be shown. Don't weigh again; see to where they go.", day->file);
        status = NOT_CERTAIN;
    }
    if (saved != SAVED) {
        say("%s: The weighings are stored, but a cut of power may still undo that. Look whether they are there before "
            "you weigh again.",
            day->file);
        status = NOT_CERTAIN;
    }
    return status;
}

/* A day's file that can't be read has no lines here: what is wrong with it is said when it is opened to be written. */
static enum status store(const char *path, struct bytes *image, const struct day *day,
                         const struct weighings *weighings, long tare)
{
    struct bytes log;
    enum saved saved;
    bool appended;
    fetch_file(image, day->file, &log);
    appended = !is_stored(&log, day, weighings) && append_all(image, &log, day, weighings);
    free(log.at);
    if (!appended)
        return NOT_STORED;
    saved = replace_whole(path, image);
    return saved == NOT_SAVED ? NOT_STORED : show_stored(day, weighings, tare, saved);
}

/* On a disk that is not sound weighings are shown, if it has a tare, and never stored. */
static void show_only(const char *path, uint64_t checked, const struct day *day, const struct weighings *weighings,
                      long tare)
{
    unsigned finding = BM_NUMBER(checked), place = BM_VALUE(checked);
    if (tare < 0)
        say("%s: %s (finding %u at %u)", path, bm_sentence(BM_NOT_SOUND), finding, place);
    else {
        bool shown = show(day, weighings, tare);
        say("%s: The disk is not sound (finding %u at %u). The weighings %s against the tare that was rescued off it, "
            "%ld g, and nothing was stored. Bring its files off by balladmoor get --rescue, and put them on a new disk, "
            "the tare too.",
            path, finding, place, shown ? "were shown" : "could not be shown", tare);
    }
}

static enum status weigh(const char *path, struct bytes *image, const struct day *day,
                         const struct weighings *weighings)
{
    enum { NO_KIND = 1 };
    uint64_t checked = bm_check(IMAGE, NULL, 0);
    long tare;
    if (BM_NUMBER(checked) == NO_KIND) {
        say_refused(path, BM_NOT_OF_A_KIND);
        return NOT_STORED;
    }
    tare = find_tare(image);
    if (BM_NUMBER(checked) == 0)
        return tare < 0 ? NOT_STORED : store(path, image, day, weighings, tare);
    show_only(path, checked, day, weighings, tare);
    return NOT_STORED;
}

int main(int count, char **words)
{
    static struct weighings weighings;
    struct bytes image;
    struct day day;
    enum status status;
    hold_standard_files();
    signal(SIGPIPE, SIG_IGN); /* Else a reader that has gone would end the program between storing and its status. */
    if (count < 4 || !take_day(words[2], words[3], &day) || !take_weighings(words + 4, &weighings)) {
        say("Usage: scale IMAGE YYYY-MM-DD HH:MM:SS [GRAMS..], with 1 to %d weighings.", WEIGHINGS_MOST);
        return WRONG_USAGE;
    }
    if (!read_to_replace(words[1], &image))
        return NOT_STORED;
    status = weigh(words[1], &image, &day, &weighings);
    free(image.at);
    return status;
}
