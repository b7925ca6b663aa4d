/* Files of a volume, read and stored whole. */
#ifndef WHOLEFILE_H
#define WHOLEFILE_H

#include "balladmoor_help.h"
#include "imagefile.h"

/* Reads a file of the volume; a byte 0 stands after its contents. Answers 0, or the number of the refusal; contents are
 * then empty. */
uint32_t fetch_file(const struct bytes *image, const char *name, struct bytes *contents);

/* The same off a volume that need not be sound, through the file's own chain. */
uint32_t rescue_file(const struct bytes *image, const char *name, struct bytes *contents);

/* Makes a file of that name, or empties the one that is there, which keeps its marks, and stores the contents. *stored
 * is how many bytes the disk had room for: if fewer than there are, the caller must throw the image away. Answers 0, or
 * the number of the refusal. */
uint32_t store_file(const struct bytes *image, const char *name, const struct bytes *contents,
                    const struct bm_stamp *stamp, size_t *stored);

/* The slot of a file that fetch_file reads; 0 for any other name. */
uint32_t slot_of(const struct bytes *image, const char *name);

#endif
