/* The listing of a volume: the crate `listing`, in liblisting.a. */
#ifndef LISTING_H
#define LISTING_H

#include <stddef.h>
#include <stdint.h>

/* Bytes of the buffer that it wants; no listing is longer. */
#define LISTING_ROOM 16384u

/* Puts the listing of a system area into out, and answers how many bytes it has. If out is shorter than LISTING_ROOM,
 * it is left as it came and the answer is 0. The area is only read. */
size_t listing_put(const uint8_t *area, size_t area_length, uint8_t *out, size_t out_length);

#endif
