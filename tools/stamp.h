/* Stamps, of the machine's times. */
#ifndef STAMP_H
#define STAMP_H

#include "balladmoor_help.h"

#include <stdbool.h>
#include <time.h>

/* The stamp of a second, in local time; a year that is out of range stays so. False, with a sentence on standard error,
 * if it has no date; whose says whose time it is. */
bool stamp_of_second(const char *whose, time_t second, struct bm_stamp *stamp);

/* Whether SOURCE_DATE_EPOCH stands for the clock. */
bool has_epoch(void);

/* The stamp of now, by the clock and in local time; or of the second that SOURCE_DATE_EPOCH gives, in universal time.
 * False, with a sentence on standard error, if that is no number. */
bool stamp_of_now(struct bm_stamp *stamp);

#endif
