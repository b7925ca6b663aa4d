/* Files that a pattern finds: those that bm_find finds, hidden and system ones too, as list shows them. */
#ifndef MATCHING_H
#define MATCHING_H

#include "entries.h"

/* Whether a word that may be a name or a pattern is a pattern: it has ? or *, which no name has. */
bool is_pattern(const char *word);

/* 0 if the pattern finds a file, or else the number of the refusal. */
uint32_t match_number(const struct bytes *image, const char *pattern);

/* As next_entry, but only files that the pattern finds. Without a pattern, NULL, it is next_entry. */
bool next_match(const struct bytes *image, const char *pattern, struct entry *entry);

/* A file that words ask for. */
struct chosen {
    const char *name; /* as the word has it, or `found` */
    char found[NAME_ROOM];
};

struct choice {
    const struct bytes *image;
    struct chosen *files; /* from malloc */
    int count;
    bool is_named[BM_SLOTS_MOST]; /* by slot: a word or a pattern before has named the file */
};

/* The files that names and patterns ask for, in the order of the words, those of a pattern in the order of the list.
 * A name stands for itself, and may be of no file. What a pattern finds comes once, and not again if a name asks for it
 * too. False, with a sentence on standard error, if a pattern is refused or finds a file that no name leads to. */
bool choose_files(const char *path, const struct bytes *image, char **words, int count, struct choice *choice);

#endif
