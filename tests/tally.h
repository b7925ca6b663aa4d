/* Checks of a C program that print a line each, and their tally. */
#ifndef TALLY_H
#define TALLY_H

void expect(int holds, const char *what);

/* Prints how many passed and failed: the last line of each program. Answers its exit status. */
int tally(void);

#endif
