#include "matching.h"

#include "refusal.h"
#include "say.h"
#include "wholefile.h"

#include <string.h>

#define IMAGE image->at, image->length
#define NAME(word) (const uint8_t *)(word), strlen(word)

bool is_pattern(const char *word)
{
    return strpbrk(word, "?*") != NULL;
}

/* ---- One pattern ---- */

static uint64_t find_from(const struct bytes *image, const char *pattern, uint32_t slot)
{
    return bm_find(IMAGE, NAME(pattern), slot, BM_HIDDEN | BM_SYSTEM);
}

uint32_t match_number(const struct bytes *image, const char *pattern)
{
    return BM_NUMBER(find_from(image, pattern, 0));
}

bool next_match(const struct bytes *image, const char *pattern, struct entry *entry)
{
    uint64_t answer;
    if (pattern == NULL)
        return next_entry(image, entry);
    answer = find_from(image, pattern, entry->slot);
    entry->slot = BM_VALUE(answer);
    return BM_NUMBER(answer) == 0 && next_entry(image, entry);
}

/* ---- Names and patterns ---- */

/* The slot of the file that a name leads to. False if there is none. */
static bool find_slot(const struct bytes *image, const char *name, uint32_t *slot)
{
    *slot = slot_of(image, name);
    return BM_NUMBER(bm_view_number(IMAGE, NAME(name), 0)) == 0;
}

static void mark_names(struct choice *choice, char **words, int count)
{
    uint32_t slot;
    int n;
    for (n = 0; n < count; n++)
        if (find_slot(choice->image, words[n], &slot))
            choice->is_named[slot] = true;
}

/* Adds a file that a pattern found. Other systems' names need not be such as may be given here: one with a / would lead
 * out of the folder that the copy is for, and one in small letters to the file of that name in capitals. */
static bool add_found(struct choice *choice, const struct entry *entry)
{
    struct chosen *file = &choice->files[choice->count];
    uint32_t slot;
    file->name = spell_name(entry, file->found);
    if (!find_slot(choice->image, file->name, &slot) || slot != entry->slot) {
        say("%s: Another system gave a file this name, and no name that may be given here leads to it, so nothing was "
            "copied. Take a pattern that leaves it out, or names. (refusal 42)",
            file->name);
        return false;
    }
    choice->is_named[slot] = true;
    choice->count++;
    return true;
}

static bool add_matches(struct choice *choice, const char *path, const char *pattern)
{
    uint32_t number = match_number(choice->image, pattern);
    struct entry entry;
    if (number != 0) {
        say_refusal(MATCHING, path, pattern, number, choice->image);
        return false;
    }
    for (entry.slot = 0; next_match(choice->image, pattern, &entry); entry.slot++)
        if (!choice->is_named[entry.slot] && !add_found(choice, &entry))
            return false;
    return true;
}

bool choose_files(const char *path, const struct bytes *image, char **words, int count, struct choice *choice)
{
    int n;
    memset(choice, 0, sizeof *choice);
    choice->image = image;
    choice->files = (struct chosen *)new_bytes(((size_t)count + BM_SLOTS_MOST) * sizeof(struct chosen)).at;
    mark_names(choice, words, count);
    for (n = 0; n < count; n++)
        if (!is_pattern(words[n]))
            choice->files[choice->count++].name = words[n];
        else if (!add_matches(choice, path, words[n]))
            return false;
    return true;
}
