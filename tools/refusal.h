/* Sentences for the numbers that the calls answer: what is wrong, and what to do. */
#ifndef REFUSAL_H
#define REFUSAL_H

#include "imagefile.h"

/* What the program was about to do. Number 5 means something else for each. The others don't, but for MATCHING: there
 * the name in hand is a pattern. */
enum task { READING, RESCUING, MATCHING, MAKING, REPLACING, DELETING, RENAMING, TAKING_NAME, SETTING_MODE, TASKS };

/* The sentence for a refusal number. */
const char *refusal_sentence(enum task task, uint32_t number);

/* Says on standard error what is wrong and what to do, and answers 1, the exit status: that a call on a file of this
 * image was refused; on a volume that is not sound, with what check finds there. */
int say_refusal(enum task task, const char *path, const char *name, uint32_t number, const struct bytes *image);

/* Room for a finding in words. */
enum { FINDING_ROOM = 128 };

/* What check found, with its place: "finding 6 at cluster 2: a cluster in two files". Answers words. */
const char *finding_words(uint64_t checked, char *words);

#endif
