/* The entries of a volume's root, one after the other, and what stands in them. The volume need not be sound. */
#ifndef ENTRIES_H
#define ENTRIES_H

#include "balladmoor_help.h"
#include "imagefile.h"
#include "member.h"

struct entry {
    uint32_t slot;
    uint32_t what; /* MEMBER_FILE, MEMBER_LABEL, MEMBER_DIRECTORY or MEMBER_LONG_NAME */
    struct bm_entry_fields fields;
};

/* The lowest slot from entry->slot on that has an entry. False if there is none. All of them:
 *
 *     for (entry.slot = 0; next_entry(image, &entry); entry.slot++)
 */
bool next_entry(const struct bytes *image, struct entry *entry);

/* Whether the entry is a plain file by the growers' rules: one that has a name, a size and clusters. */
bool is_file(const struct entry *entry);

/* A byte as the sign of ASCII that it is, or else this one. */
char sign_or(uint8_t byte, char else_this);

/* Room for a name: 8, a dot, 3 and a byte 0. */
enum { NAME_ROOM = 13 };

/* The name as people write it, TARE.KEY. Only what is no sign of ASCII comes as ?: other makers' names have signs that
 * no caller may give. Answers name. */
const char *spell_name(const struct entry *entry, char *name);

/* The same for the label, which has no dot. */
const char *spell_label(const struct entry *entry, char *name);

/* What member_date and member_time tell of the entry's. */
uint64_t date_of(const struct entry *entry);
uint64_t time_of(const struct entry *entry);

#endif
