/* What check found, with the names of the files. */
#ifndef FINDING_H
#define FINDING_H

#include "entries.h"

/* Up to two names, as text. */
struct names {
    char name[2][NAME_ROOM];
    unsigned count;
};

/* The files that a finding is about: the entry at the slot of finding 4 or 5, the first two that hold the cluster of
 * finding 6. */
void find_names(const struct bytes *image, uint64_t checked, struct names *names);

/* Says on standard error what was found, and what to do. */
void say_finding(const char *path, const struct bytes *image, uint64_t checked);

#endif
