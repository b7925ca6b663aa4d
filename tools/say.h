/* Sentences on standard error. */
#ifndef SAY_H
#define SAY_H

/* The program's name, which each sentence begins with. */
extern const char *const program_name;

/* Writes a sentence, a line of its own, in one piece: those of programs that run at once do not mix. Answers 1, the
 * exit status of a program that could not do what it was asked for. */
int say(const char *format, ...) __attribute__((format(printf, 1, 2)));

/* A name as a sentence has it, also one that is empty. */
const char *spoken(const char *name);

/* The same as say for what the machine refused, which errno says: "path: what: why. What to do." */
int say_trouble(const char *path, const char *what);

/* A byte of a name or a sentence as a terminal may have it: ? for one that it would obey. */
char shown(char byte);

#endif
