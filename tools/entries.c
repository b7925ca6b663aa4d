#include "entries.h"

#define IMAGE image->at, image->length

bool next_entry(const struct bytes *image, struct entry *entry)
{
    if (!bm_next_entry(IMAGE, &entry->slot, &entry->fields))
        return false;
    entry->what = BM_VALUE(member_slot(IMAGE, entry->slot));
    return true;
}

bool is_file(const struct entry *entry)
{
    return entry->what == MEMBER_FILE || entry->what == MEMBER_DIRECTORY;
}

char sign_or(uint8_t byte, char else_this)
{
    return byte >= ' ' && byte <= '~' ? (char)byte : else_this;
}

/* Puts length bytes of a name at the end of text, without the spaces at their end. Answers the end of the text. */
static char *spell_part(const uint8_t *bytes, unsigned length, char *end)
{
    while (length > 0 && bytes[length - 1] == ' ')
        length--;
    for (; length > 0; length--, bytes++)
        *end++ = sign_or(*bytes, '?');
    *end = '\0';
    return end;
}

const char *spell_name(const struct entry *entry, char *name)
{
    const uint8_t *stored = entry->fields.stored + BM_ENTRY_NAME;
    char *dot = spell_part(stored, 8, name);
    if (spell_part(stored + 8, 3, dot + 1) != dot + 1)
        *dot = '.';
    return name;
}

const char *spell_label(const struct entry *entry, char *name)
{
    spell_part(entry->fields.stored + BM_ENTRY_NAME, 11, name);
    return name;
}

uint64_t date_of(const struct entry *entry)
{
    return member_date(bm_number_2(entry->fields.stored + BM_ENTRY_DATE));
}

uint64_t time_of(const struct entry *entry)
{
    return member_time(bm_number_2(entry->fields.stored + BM_ENTRY_TIME));
}
