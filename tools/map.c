#include "map.h"

#include "entries.h"

#include <limits.h>
#include <stdio.h>

#define IMAGE image->at, image->length

/* The first cluster; the signs in a line. */
enum { FIRST = 2, LINE = 64 };

/* The files' letters. r and x are not among them: they are signs of clusters that no file holds. */
static const char letters[] = "abcdefghijklmnopqstuvwyzABCDEFGHIJKLMNOPQRSTUVWXYZ";

enum { LETTERS = sizeof letters - 1 };

static const struct {
    char sign;
    const char *what;
} signs[] = {
    {'.', "free"},
    {'x', "bad"},
    {'r', "reserved"},
    {'*', "in two files or more"},
    {'?', "in use, but in no file"},
};

/* The letter of the file in a slot, by its place in the list. */
static char letter_of(const struct bytes *image, uint32_t slot)
{
    struct entry entry;
    unsigned place = 0;
    for (entry.slot = 0; next_entry(image, &entry) && entry.slot < slot; entry.slot++)
        place += is_file(&entry);
    return place < LETTERS ? letters[place] : '+';
}

static char sign_of(const struct bytes *image, uint32_t cluster, uint32_t value)
{
    uint32_t holder = BM_VALUE(member_holder(IMAGE, cluster, 0));
    if (holder != 0)
        return BM_VALUE(member_holder(IMAGE, cluster, holder)) != 0 ? '*' : letter_of(image, holder - 1);
    switch (value) {
    case MEMBER_FREE:
        return '.';
    case MEMBER_BAD:
        return 'x';
    case MEMBER_RESERVED:
        return 'r';
    default:
        return '?';
    }
}

/* Prints the clusters, and counts each sign. */
static void print_clusters(const struct bytes *image, unsigned *counts)
{
    uint32_t cluster, value = BM_VALUE(member_cluster(IMAGE, FIRST));
    for (cluster = FIRST; value != MEMBER_NO_CLUSTER; value = BM_VALUE(member_cluster(IMAGE, ++cluster))) {
        char sign = sign_of(image, cluster, value);
        if ((cluster - FIRST) % LINE == 0)
            printf("%s%5u ", cluster == FIRST ? "" : "\n", (unsigned)cluster);
        putchar(sign);
        counts[(unsigned char)sign]++;
    }
    printf("\n\n");
}

static void print_files(const struct bytes *image)
{
    struct entry entry;
    char name[NAME_ROOM];
    for (entry.slot = 0; next_entry(image, &entry); entry.slot++)
        if (is_file(&entry))
            printf("%c  %-12s %9lu bytes\n", letter_of(image, entry.slot), spell_name(&entry, name),
                   (unsigned long)entry.fields.size);
}

uint32_t print_map(const struct bytes *image)
{
    uint64_t answer = member_cluster(IMAGE, FIRST);
    unsigned counts[UCHAR_MAX + 1] = {0};
    size_t n;
    if (BM_NUMBER(answer) != 0)
        return BM_NUMBER(answer);
    print_clusters(image, counts);
    print_files(image);
    for (n = 0; n < sizeof signs / sizeof signs[0]; n++) {
        unsigned count = counts[(unsigned char)signs[n].sign];
        if (count != 0)
            printf("%c  %s: %u cluster%s\n", signs[n].sign, signs[n].what, count, count == 1 ? "" : "s");
    }
    return 0;
}

uint32_t lost_clusters(const struct bytes *image)
{
    uint32_t cluster, value, count = 0;
    for (cluster = FIRST; (value = BM_VALUE(member_cluster(IMAGE, cluster))) != MEMBER_NO_CLUSTER; cluster++)
        if ((value == MEMBER_LINK || value == MEMBER_END) && BM_VALUE(member_holder(IMAGE, cluster, 0)) == 0)
            count++;
    return count;
}
