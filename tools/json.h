/* What check and list print for programs: one object. `balladmoor help check` and `help list` say what is in it. */
#ifndef JSON_H
#define JSON_H

#include "balladmoor_help.h"
#include "imagefile.h"

/* What check answered, and what it counts on a sound volume. */
void print_check_json(const struct bytes *image, uint64_t checked, struct bm_counts counts);

/* Answers 0, or the number of the refusal: as print_list. */
uint32_t print_list_json(const struct bytes *image, const char *pattern);

#endif
