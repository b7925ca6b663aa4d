/* The verbs of the command. */
#ifndef VERBS_H
#define VERBS_H

#include "imagefile.h"
#include "status.h"

#include <string.h>

/* Options, as a sum of bits. */
enum { KEEP_DATES = 1, AS_NAMES = 2, AS_JSON = 4, RESCUE = 8 };

/* What stands behind the verb. */
struct order {
    char **words; /* without the options; NULL is the last */
    int count;
    unsigned options;
};

/* Each says on standard error what it can't do and why. (reading.c) */
enum status check(const struct order *order);
enum status list(const struct order *order);
enum status show_map(const struct order *order);
enum status show_free(const struct order *order);
enum status show(const struct order *order);
enum status ask_mode(const struct order *order);

/* (getting.c) */
enum status get(const struct order *order);

/* (changing.c) */
enum status format(const struct order *order);
enum status delete_file(const struct order *order);
enum status rename_file(const struct order *order);
enum status mode(const struct order *order);

/* (putting.c) */
enum status put(const struct order *order);

/* ---- What they share (changing.c) ---- */

#define IMAGE image.at, image.length
#define NAME(word) (const uint8_t *)(word), strlen(word)

/* An open table without places: no file is open while the command deletes, renames or sets a mode. */
#define NO_TABLE NULL, 0

/* Reads and locks an image that is to be changed, or answers how it ends. */
enum status take_image(const char *path, struct bytes *image);

/* Puts the image that was changed in memory in the place of its file, and frees it. */
enum status keep_image(const char *path, struct bytes *image);

/* The status of a file that was saved, or not. */
enum status status_of(enum saved saved);

#endif
