/* The marks of a file: the bits of its attribute. */
#ifndef MARKS_H
#define MARKS_H

#include <stdint.h>

struct mark {
    uint32_t bit;
    char letter;
    const char *word, *key; /* for people, and in JSON */
};

enum { MARKS = 4 };

extern const struct mark marks[MARKS];

#endif
