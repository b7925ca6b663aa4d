/* The map of a volume: a sign for each cluster, and what the signs mean. */
#ifndef MAP_H
#define MAP_H

#include "imagefile.h"

/* Prints it, of any image of a kind, a broken one too. Answers 0, or the number of the refusal. */
uint32_t print_map(const struct bytes *image);

/* How many clusters are in use by the table, but in no file. */
uint32_t lost_clusters(const struct bytes *image);

#endif
