/* Standard input, output and error. */
#ifndef STANDARD_H
#define STANDARD_H

/* To be called first. A file that is opened gets the lowest number that is free: where standard input, output or error
 * is closed, the file would be taken for it. This puts something in the place of each that is closed, from which
 * nothing can be read and to which nothing can be written. */
void hold_standard_files(void);

#endif
