#include "print.h"

#include "entries.h"
#include "marks.h"
#include "matching.h"
#include "say.h"

#include <stdio.h>

/* The bytes in a line of hex; room for the digits of a number in groups. */
enum { LINE = 16, DIGITS_ROOM = 32 };

void print_text(const char *text)
{
    for (; *text != '\0'; text++)
        putchar(shown(*text));
}

/* ---- Room ---- */

static unsigned long bytes_of(uint32_t clusters, struct bm_space space)
{
    return (unsigned long)clusters * space.cluster_size;
}

uint32_t find_room(const struct bytes *image, struct room *room)
{
    uint8_t out[BM_SPACE_SIZE] = {0}, counted[BM_COUNTS_SIZE] = {0};
    uint64_t answer = bm_free_space(image->at, image->length, out, sizeof out);
    struct bm_space space = bm_space_of(out);
    struct bm_counts counts;
    bm_check(image->at, image->length, counted, sizeof counted);
    counts = bm_counts_of(counted);
    room->free = bytes_of(space.free, space);
    room->bad = bytes_of(counts.bad, space);
    room->reserved = bytes_of(counts.reserved, space);
    return BM_NUMBER(answer);
}

/* ---- The list ---- */

static void print_name(const struct entry *entry)
{
    unsigned n;
    for (n = 0; n < 11; n++) {
        if (n == 8)
            putchar(' ');
        putchar(sign_or(entry->fields.stored[BM_ENTRY_NAME + n], '?'));
    }
}

/* Date and time; one that is out of its ranges prints as none. */
static void print_stamp(const struct entry *entry)
{
    uint64_t date = date_of(entry), time = time_of(entry);
    unsigned ymd = BM_VALUE(date), hms = BM_VALUE(time);
    if (BM_NUMBER(date) == 0)
        printf(" %04u-%02u-%02u", ymd / 10000, ymd / 100 % 100, ymd % 100);
    else
        printf(" %10s", "none");
    if (BM_NUMBER(time) == 0)
        printf("  %2u:%02u", hms / 10000, hms / 100 % 100);
    else
        printf("  %5s", "none");
}

static void print_file(const struct entry *entry)
{
    unsigned n;
    print_name(entry);
    if (entry->what == MEMBER_DIRECTORY)
        printf(" <DIR>    ");
    else
        printf(" %9lu", (unsigned long)entry->fields.size);
    print_stamp(entry);
    printf("  ");
    for (n = 0; n < MARKS; n++)
        putchar(entry->fields.attribute & marks[n].bit ? marks[n].letter : '-');
    putchar('\n');
}

static void print_label(const char *path, const struct bytes *image)
{
    struct entry entry = {0};
    char label[NAME_ROOM];
    bool found = false;
    for (; !found && next_entry(image, &entry); entry.slot++)
        found = entry.what == MEMBER_LABEL;
    printf(" Volume in ");
    print_text(path);
    if (found)
        printf(" is %s\n\n", spell_label(&entry, label));
    else
        printf(" has no label\n\n");
}

/* The digits of a number, with a space before each three as mdir has them. Answers how many signs. */
static int group(unsigned long number, char *digits)
{
    int length = number < 1000 ? 0 : group(number / 1000, digits);
    return length + sprintf(digits + length, length == 0 ? "%lu" : " %03lu", number % 1000);
}

static void print_files(const struct bytes *image, const char *pattern)
{
    unsigned long files = 0, bytes = 0;
    char digits[DIGITS_ROOM];
    struct entry entry;
    for (entry.slot = 0; next_match(image, pattern, &entry); entry.slot++)
        if (is_file(&entry)) {
            print_file(&entry);
            files++;
            bytes += entry.fields.size;
        } else if (entry.what == MEMBER_LONG_NAME)
            printf("(long name)\n");
    group(bytes, digits);
    if (files == 0)
        printf("No files\n");
    else
        printf("%9lu file%s%20s bytes\n", files, files == 1 ? " " : "s", digits);
}

static void print_room(unsigned long bytes, const char *what)
{
    char digits[DIGITS_ROOM];
    group(bytes, digits);
    printf("%35s bytes %s\n", digits, what);
}

uint32_t print_list(const char *path, const struct bytes *image, const char *pattern)
{
    struct room room;
    uint32_t number = find_room(image, &room);
    if (number == BM_NOT_OF_A_KIND)
        return number;
    print_label(path, image);
    print_files(image, pattern);
    if (number == 0)
        print_room(room.free, "free");
    if (room.bad != 0)
        print_room(room.bad, "bad");
    if (room.reserved != 0)
        print_room(room.reserved, "reserved");
    return number;
}

uint32_t print_names(const struct bytes *image, const char *pattern)
{
    struct entry entry;
    char name[NAME_ROOM];
    for (entry.slot = 0; next_match(image, pattern, &entry); entry.slot++)
        if (entry.what == MEMBER_FILE)
            printf("%s\n", spell_name(&entry, name));
    return BM_NUMBER(bm_free_space(image->at, image->length, NULL, 0));
}

/* ---- Numbers and bytes ---- */

void print_counts(const char *path, struct bm_counts counts)
{
    print_text(path);
    printf(": sound; files %u; clusters free %u, held by files %u, bad %u, reserved %u\n", (unsigned)counts.files,
           (unsigned)counts.free, (unsigned)counts.held, (unsigned)counts.bad, (unsigned)counts.reserved);
}

void print_space(struct bm_space space)
{
    printf("%lu bytes free: %u of %u clusters of %u bytes\n", bytes_of(space.free, space), (unsigned)space.free,
           (unsigned)space.clusters, (unsigned)space.cluster_size);
}

void print_attribute(uint32_t attribute)
{
    unsigned n;
    printf("%02X", (unsigned)attribute);
    for (n = 0; n < MARKS; n++)
        if (attribute & marks[n].bit)
            printf(" %s", marks[n].word);
    putchar('\n');
}

void print_bytes(const struct bytes *bytes)
{
    size_t line, n;
    for (line = 0; line < bytes->length; line += LINE) {
        printf("%06lX ", (unsigned long)line);
        for (n = line; n < line + LINE; n++)
            if (n < bytes->length)
                printf(" %02X", bytes->at[n]);
            else
                printf("   ");
        printf("  ");
        for (n = line; n < line + LINE && n < bytes->length; n++)
            putchar(sign_or(bytes->at[n], '.'));
        putchar('\n');
    }
}
