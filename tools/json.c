#include "json.h"

#include "entries.h"
#include "finding.h"
#include "map.h"
#include "marks.h"
#include "matching.h"
#include "print.h"

#include <stdio.h>

#define IMAGE image->at, image->length

/* Names have no sign below a space here, and none above ~: spell_name sees to that. */
static void print_string(const char *text)
{
    putchar('"');
    for (; *text != '\0'; text++)
        printf(*text == '"' || *text == '\\' ? "\\%c" : "%c", *text);
    putchar('"');
}

static const char *bool_word(bool value)
{
    return value ? "true" : "false";
}

/* ---- check ---- */

static void print_finding(const struct bytes *image, uint64_t checked)
{
    struct names names;
    unsigned n;
    find_names(image, checked, &names);
    printf("{\"sound\":false,\"finding\":%u,\"place\":%u,\"names\":[", (unsigned)BM_NUMBER(checked),
           (unsigned)BM_VALUE(checked));
    for (n = 0; n < names.count; n++) {
        printf(n == 0 ? "" : ",");
        print_string(names.name[n]);
    }
    printf("],\"lost\":%u}\n", (unsigned)lost_clusters(image));
}

void print_check_json(const struct bytes *image, uint64_t checked, struct bm_counts counts)
{
    if (BM_NUMBER(checked) == 0)
        printf("{\"sound\":true,\"files\":%u,\"free\":%u,\"held\":%u,\"bad\":%u,\"reserved\":%u}\n",
               (unsigned)counts.files, (unsigned)counts.free, (unsigned)counts.held, (unsigned)counts.bad,
               (unsigned)counts.reserved);
    else
        print_finding(image, checked);
}

/* ---- list ---- */

static void print_date(uint64_t date)
{
    unsigned ymd = BM_VALUE(date);
    if (BM_NUMBER(date) == 0)
        printf(",\"date\":\"%04u-%02u-%02u\"", ymd / 10000, ymd / 100 % 100, ymd % 100);
    else
        printf(",\"date\":null");
}

static void print_time(uint64_t time)
{
    unsigned hms = BM_VALUE(time);
    if (BM_NUMBER(time) == 0)
        printf(",\"time\":\"%02u:%02u:%02u\"", hms / 10000, hms / 100 % 100, hms % 100);
    else
        printf(",\"time\":null");
}

static void print_file(const struct entry *entry)
{
    char name[NAME_ROOM];
    unsigned n;
    printf("{\"name\":");
    print_string(spell_name(entry, name));
    printf(",\"directory\":%s,\"size\":%lu",
           bool_word(entry->what == MEMBER_DIRECTORY), (unsigned long)entry->fields.size);
    print_date(date_of(entry));
    print_time(time_of(entry));
    for (n = 0; n < MARKS; n++)
        printf(",\"%s\":%s", marks[n].key, bool_word(entry->fields.attribute & marks[n].bit));
    printf("}");
}

/* The first label, null where there is none. */
static void print_label(const struct bytes *image)
{
    struct entry entry;
    char label[NAME_ROOM];
    for (entry.slot = 0; next_entry(image, &entry); entry.slot++)
        if (entry.what == MEMBER_LABEL) {
            print_string(spell_label(&entry, label));
            return;
        }
    printf("null");
}

static void print_files(const struct bytes *image, const char *pattern)
{
    struct entry entry;
    const char *between = "";
    for (entry.slot = 0; next_match(image, pattern, &entry); entry.slot++)
        if (is_file(&entry)) {
            printf("%s", between);
            print_file(&entry);
            between = ",";
        }
}

uint32_t print_list_json(const struct bytes *image, const char *pattern)
{
    struct room room;
    uint32_t number = find_room(image, &room);
    if (number == BM_NOT_OF_A_KIND)
        return number;
    printf("{\"sound\":%s,\"label\":", bool_word(number == 0));
    print_label(image);
    if (number == 0)
        printf(",\"free\":%lu,\"bad\":%lu,\"reserved\":%lu", room.free, room.bad, room.reserved);
    else
        printf(",\"free\":null,\"bad\":null,\"reserved\":null");
    printf(",\"files\":[");
    print_files(image, pattern);
    printf("]}\n");
    return number;
}
