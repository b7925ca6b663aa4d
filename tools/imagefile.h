/* Files of the machine, an image of a diskette among them: read whole, and saved whole. What fails is said on standard
 * error. */
#ifndef IMAGEFILE_H
#define IMAGEFILE_H

#include <stdbool.h>
#include <stddef.h>
#include <stdint.h>
#include <time.h>

/* A run of bytes, from malloc. */
struct bytes {
    uint8_t *at;
    size_t length;
};

/* That many bytes, all 0, and one more behind them. Without memory for them the program ends, with a sentence and exit
 * status 1. */
struct bytes new_bytes(size_t length);

/* ---- Reading (imagefile.c). The answer is whether it was done. ---- */

/* Whether a word stands for standard input or output, "-", and not for a file. */
bool is_standard(const char *path);

/* Reads a file whole; "-" is standard input. */
bool read_whole(const char *path, struct bytes *bytes);

/* Reads a file that is to be replaced. Until the program ends, no other that reads the same file by this call gets it:
 * two that change one image can't lose each other's work. "-" is a file of that name. */
bool read_to_replace(const char *path, struct bytes *bytes);

/* When a file was last changed. */
bool find_time(const char *path, time_t *changed);

/* ---- Saving (savefile.c) ---- */

/* How the bytes of a file were saved. Unless it is SAVED, why is said on standard error. */
enum saved {
    NOT_SAVED,  /* nothing was changed */
    SAVED,
    NOT_FLUSHED /* they have the file's name, but a cut of power may still bring back what was there */
};

/* Puts these bytes in the place of a file. They are written to a new file beside it and flushed, and only then does the
 * new file take the name: whenever the power is cut, the old bytes are there or the new ones, whole. A cut may leave
 * the new file too, under the old one's name with a dot and six signs; it may be removed. The new file has the old
 * one's permissions, and its owner and group where the user may give them; other links to the old file keep the old
 * bytes. A file without write permission is refused. */
enum saved replace_whole(const char *path, const struct bytes *bytes);

/* The same for a file that must not be there yet: of two programs that make the same one, one makes it. */
enum saved make_whole(const char *path, const struct bytes *bytes);

/* The same for a file that is to look as if it was last changed then. */
enum saved make_dated(const char *path, const struct bytes *bytes, time_t changed);

#endif
