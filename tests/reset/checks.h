/* What is looked for on a disk. */
#ifndef CHECKS_H
#define CHECKS_H

#include "save.h"
#include "tally.h"

/* Whether rescue gives just these bytes of the file, and leaves the rest of its buffer. */
int gives(const uint8_t *disk, size_t length, const char *name, const uint8_t *bytes, size_t count);

/* Whether it gives the tare of so many bytes. */
int gives_tare(const uint8_t *disk, size_t length, size_t count);

/* ---- The tests ---- */

void try_cases(void);
void try_runs(void);

#endif
