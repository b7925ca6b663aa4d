#define _XOPEN_SOURCE 700
#define _DEFAULT_SOURCE /* flock */

#include "imagefile.h"

#include "say.h"

#include <errno.h>
#include <fcntl.h>
#include <stdlib.h>
#include <string.h>
#include <sys/file.h>
#include <sys/stat.h>
#include <unistd.h>

/* More than any diskette holds, so that a file given by mistake does not fill the memory. */
enum { LENGTH_MOST = 16 * 1024 * 1024, PIECE = 64 * 1024 };

static bool fails(const char *path, const char *what)
{
    say_trouble(path, what);
    return false;
}

struct bytes new_bytes(size_t length)
{
    struct bytes bytes = {calloc(length + 1, 1), length};
    if (bytes.at == NULL)
        exit(say("There is no memory left. End another program, and try again."));
    return bytes;
}

bool is_standard(const char *path)
{
    return strcmp(path, "-") == 0;
}

static bool has_room(struct bytes *bytes, size_t room)
{
    uint8_t *grown = realloc(bytes->at, room);
    if (grown != NULL)
        bytes->at = grown;
    return grown != NULL;
}

static bool read_from(int file, const char *path, struct bytes *bytes)
{
    ssize_t count;
    do {
        if (bytes->length > LENGTH_MOST) {
            say("%s: The file is too long to be a diskette or to fit one. See that it is the right file.", path);
            return false;
        }
        if (!has_room(bytes, bytes->length + PIECE))
            return fails(path, "The file can't be read");
        count = read(file, bytes->at + bytes->length, PIECE);
        if (count < 0 && errno != EINTR)
            return fails(path, "The file can't be read");
        if (count > 0)
            bytes->length += (size_t)count;
    } while (count != 0);
    return true;
}

bool read_whole(const char *path, struct bytes *bytes)
{
    bool all;
    int file = is_standard(path) ? dup(STDIN_FILENO) : open(path, O_RDONLY);
    bytes->at = NULL;
    bytes->length = 0;
    if (file < 0)
        return fails(path, "The file can't be opened");
    all = read_from(file, is_standard(path) ? "standard input" : path, bytes);
    close(file);
    if (!all)
        free(bytes->at);
    return all;
}

bool find_time(const char *path, time_t *changed)
{
    struct stat file;
    if (stat(path, &file) != 0)
        return fails(path, "The file's time can't be read");
    *changed = file.st_mtime;
    return true;
}

static void say_taken(const char *path)
{
    say("%s: Another program is changing this file, so nothing was changed. Try again when it is done.", path);
}

/* Takes the file's lock, which lasts until the program ends: the file stays open. Whoever had the lock before may have
 * put a new file in its place, and then it is the lock of a file that has gone. */
static bool take_lock(const char *path)
{
    struct stat locked, named;
    int file = open(path, O_RDONLY);
    if (file < 0)
        return fails(path, "The file can't be opened");
    if (flock(file, LOCK_EX | LOCK_NB) != 0) {
        if (errno == EWOULDBLOCK)
            say_taken(path);
        else
            fails(path, "The file can't be locked, so nothing was changed");
    } else if (fstat(file, &locked) != 0 || stat(path, &named) != 0 || locked.st_dev != named.st_dev ||
               locked.st_ino != named.st_ino)
        say_taken(path);
    else
        return true;
    close(file);
    return false;
}

bool read_to_replace(const char *path, struct bytes *bytes)
{
    return take_lock(path) && read_whole(path, bytes);
}
