#include "finding.h"

#include "map.h"
#include "refusal.h"
#include "say.h"

#include <stdio.h>

#define IMAGE image->at, image->length

/* The numbers of findings whose place is a slot, or a cluster in two files, or in none. */
enum { NO_KIND = 1, BAD_ENTRY = 4, BAD_CHAIN = 5, IN_TWO = 6, LOST = 7 };

/* Room for what is said behind a finding's words. */
enum { MORE_ROOM = 64 };

static void add_name(const struct bytes *image, uint32_t slot, struct names *names)
{
    struct entry entry;
    entry.slot = slot;
    if (next_entry(image, &entry) && entry.slot == slot)
        spell_name(&entry, names->name[names->count++]);
}

void find_names(const struct bytes *image, uint64_t checked, struct names *names)
{
    uint32_t place = BM_VALUE(checked), first;
    names->count = 0;
    switch (BM_NUMBER(checked)) {
    case BAD_ENTRY:
    case BAD_CHAIN:
        add_name(image, place, names);
        break;
    case IN_TWO:
        first = BM_VALUE(member_holder(IMAGE, place, 0));
        add_name(image, first - 1, names);
        add_name(image, BM_VALUE(member_holder(IMAGE, place, first)) - 1, names);
        break;
    }
}

/* What other systems' entries are, which the growers' rules have no word for. */
static const char *kind_of_entry(const struct bytes *image, uint32_t slot)
{
    switch (BM_VALUE(member_slot(IMAGE, slot))) {
    case MEMBER_DIRECTORY:
        return ", a directory";
    case MEMBER_LONG_NAME:
        return ", a part of a long name";
    case MEMBER_LABEL:
        return ", a label";
    default:
        return "";
    }
}

/* What the finding is about: names, or how many clusters. Empty where there is nothing to add. */
static void say_more(const struct bytes *image, uint64_t checked, char *more)
{
    struct names names;
    uint32_t lost;
    find_names(image, checked, &names);
    more[0] = '\0';
    if (BM_NUMBER(checked) == LOST) {
        lost = lost_clusters(image);
        snprintf(more, MORE_ROOM, ": %u such cluster%s", (unsigned)lost, lost == 1 ? "" : "s");
    } else if (names.count == 2)
        snprintf(more, MORE_ROOM, ": %s and %s", names.name[0], names.name[1]);
    else if (names.count == 1)
        snprintf(more, MORE_ROOM, ": %s%s", names.name[0],
                 BM_NUMBER(checked) == BAD_ENTRY ? kind_of_entry(image, BM_VALUE(checked)) : "");
}

void say_finding(const char *path, const struct bytes *image, uint64_t checked)
{
    char words[FINDING_ROOM], more[MORE_ROOM];
    finding_words(checked, words);
    if (BM_NUMBER(checked) == NO_KIND) {
        say("%s: %s (%s)", path, refusal_sentence(READING, BM_NOT_OF_A_KIND), words);
        return;
    }
    say_more(image, checked, more);
    say("%s: %s (%s%s; see it with: balladmoor map %s)", path, refusal_sentence(READING, BM_NOT_SOUND), words, more,
        path);
}
