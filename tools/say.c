#define _POSIX_C_SOURCE 200809L

#include "say.h"

#include <errno.h>
#include <stdarg.h>
#include <stdio.h>
#include <string.h>
#include <unistd.h>

/* Room for a sentence with two paths as long as they may be. */
enum { LINE_ROOM = 3 * 4096 };

char shown(char byte)
{
    return (unsigned char)byte < ' ' || byte == 0x7F ? '?' : byte;
}

int say(const char *format, ...)
{
    char line[LINE_ROOM];
    int n, begun = snprintf(line, sizeof line, "%s: ", program_name);
    ssize_t written;
    va_list values;
    va_start(values, format);
    vsnprintf(line + begun, sizeof line - (size_t)begun - 1, format, values);
    va_end(values);
    for (n = 0; line[n] != '\0'; n++)
        line[n] = shown(line[n]);
    line[n] = '\n';
    written = write(STDERR_FILENO, line, (size_t)n + 1);
    (void)written; /* Where standard error can't be written there is nowhere to say so. */
    return 1;
}

static const struct {
    int why;
    const char *advice;
} advices[] = {
    {ENOENT, "See that the name is right"},
    {ENOTDIR, "See that the name is right"},
    {EISDIR, "Name a file, not a folder"},
    {ENAMETOOLONG, "Take a shorter name"},
    {ELOOP, "See where its links lead"},
    {EACCES, "Ask whoever owns it, or work on a copy in a folder of your own"},
    {EPERM, "Ask whoever owns it, or work on a copy in a folder of your own"},
    {EROFS, "Work on a copy on another disk"},
    {ENOSPC, "Make room on the machine's disk"},
    {EDQUOT, "Make room on the machine's disk"},
    {EFBIG, "Ask for a higher limit on the length of a file"},
    {EBADF, "It is closed"},
    {ENOMEM, "End another program, and try again"},
    {EMFILE, "End another program, and try again"},
    {ENFILE, "End another program, and try again"},
};

static const char *advice_for(int why)
{
    size_t n;
    for (n = 0; n < sizeof advices / sizeof advices[0]; n++)
        if (advices[n].why == why)
            return advices[n].advice;
    return "See to the machine's disk";
}

const char *spoken(const char *name)
{
    return *name == '\0' ? "(an empty name)" : name;
}

int say_trouble(const char *path, const char *what)
{
    int why = errno;
    return say("%s: %s: %s. %s.", spoken(path), what, strerror(why), advice_for(why));
}
