/* What the command prints of a volume for people. */
#ifndef PRINT_H
#define PRINT_H

#include "balladmoor_help.h"
#include "imagefile.h"

/* A text of the user's, as a path: bytes that a terminal would obey come as ?. */
void print_text(const char *text);

/* How many bytes of a sound volume are free, bad and reserved. */
struct room {
    unsigned long free, bad, reserved;
};

/* Answers 0, or the number of the refusal; all three are 0 then. */
uint32_t find_room(const struct bytes *image, struct room *room);

/* The files as mdir shows them, with their marks: those that the pattern finds, or all where it is NULL. The free bytes
 * stand below; then those that are bad and those that are reserved, where there are any, since mdir has no line for
 * these. Answers 0, or the number of the refusal; without a pattern the files of a volume that is not sound are printed
 * too, without these lines. */
uint32_t print_list(const char *path, const struct bytes *image, const char *pattern);

/* The same, as names alone, one a line. */
uint32_t print_names(const struct bytes *image, const char *pattern);

/* What check counts on a sound volume. */
void print_counts(const char *path, struct bm_counts counts);

/* What free space counts. */
void print_space(struct bm_space space);

/* An attribute: two hex digits, and a word for each bit. */
void print_attribute(uint32_t attribute);

/* Bytes in hex and as text, 16 in a line. */
void print_bytes(const struct bytes *bytes);

#endif
