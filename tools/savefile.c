#define _GNU_SOURCE /* renameat2 */

#include "imagefile.h"

#include "say.h"

#include <errno.h>
#include <fcntl.h>
#include <stdio.h>
#include <stdlib.h>
#include <string.h>
#include <sys/stat.h>
#include <unistd.h>

/* What a new file has beside its bytes. */
struct traits {
    mode_t mode;
    const struct stat *replaced; /* the file whose owner and group it gets, or NULL */
    const time_t *changed;       /* when it was last changed, or NULL for now */
};

static bool write_all(int file, const struct bytes *bytes)
{
    size_t done = 0;
    while (done < bytes->length) {
        ssize_t count = write(file, bytes->at + done, bytes->length - done);
        if (count < 0 && errno != EINTR)
            return false;
        if (count > 0)
            done += (size_t)count;
    }
    return true;
}

/* Gives the file its owner and group, or its group alone; where the user may do neither, it is the user's. */
static void keep_owner(int file, const struct stat *replaced)
{
    if (fchown(file, replaced->st_uid, replaced->st_gid) != 0 && fchown(file, (uid_t)-1, replaced->st_gid) != 0)
        return;
}

/* A change of owner takes some permissions away, and so comes before them. */
static bool give(int file, const struct traits *traits)
{
    struct timespec times[2] = {{0, UTIME_OMIT}, {traits->changed == NULL ? 0 : *traits->changed, 0}};
    if (traits->replaced != NULL)
        keep_owner(file, traits->replaced);
    return fchmod(file, traits->mode) == 0 && (traits->changed == NULL || futimens(file, times) == 0);
}

/* Writes, flushes and closes. Closing can fail too, and must be tried whatever came before. */
static bool fill(int file, const struct bytes *bytes, const struct traits *traits)
{
    bool filled = write_all(file, bytes) && give(file, traits) && fsync(file) == 0;
    int why = errno;
    bool closed = close(file) == 0;
    if (!filled)
        errno = why;
    return filled && closed;
}

/* A new name in a folder is on the disk when the folder is flushed. */
static bool flush_folder(char *path)
{
    char *slash = strrchr(path, '/');
    bool flushed;
    int folder;
    if (slash != NULL)
        slash[slash == path ? 1 : 0] = '\0';
    folder = open(slash == NULL ? "." : path, O_RDONLY | O_DIRECTORY);
    if (folder < 0)
        return false;
    flushed = fsync(folder) == 0;
    close(folder);
    return flushed;
}

/* A rename that replaces nothing; or a link, on file systems that have no such rename. */
static int rename_new(const char *from, const char *to)
{
    int renamed = renameat2(AT_FDCWD, from, AT_FDCWD, to, RENAME_NOREPLACE);
    if (renamed == 0 || (errno != EINVAL && errno != ENOSYS))
        return renamed;
    if (link(from, to) != 0)
        return -1;
    unlink(from);
    return 0;
}

static void say_there(const char *path)
{
    say("%s: The file is there already, and its bytes would be lost. Remove it first, or take another name.", path);
}

/* Says why the new file did not get its name, and removes it. */
static void give_up(const char *named, const char *beside)
{
    if (errno == EEXIST)
        say_there(named);
    else
        say_trouble(named, "The new bytes can't be saved, so nothing was changed");
    unlink(beside);
}

/* Writes the new file beside path and gives it that name. Sentences have the path as the user named it. */
static enum saved put_beside(const char *named, const char *path, const struct bytes *bytes,
                             const struct traits *traits, int (*rename_to)(const char *from, const char *to))
{
    static const char ending[] = ".XXXXXX";
    struct bytes text = new_bytes(strlen(path) + sizeof ending);
    char *beside = strcat(strcpy((char *)text.at, path), ending);
    enum saved saved = NOT_SAVED;
    int file = mkstemp(beside);
    if (file < 0)
        say_trouble(named, "No file can be made beside it, so nothing was changed");
    else if (!fill(file, bytes, traits) || rename_to(beside, path) != 0)
        give_up(named, beside);
    else if (flush_folder(beside))
        saved = SAVED;
    else {
        say_trouble(named, "It is done, but a cut of power may still undo it. Look before you do it again");
        saved = NOT_FLUSHED;
    }
    free(beside);
    return saved;
}

enum saved replace_whole(const char *path, const struct bytes *bytes)
{
    struct stat old;
    char *real = realpath(path, NULL); /* Where path is a link, the file behind it is replaced and the link stays. */
    enum saved saved = NOT_SAVED;
    if (real == NULL || stat(real, &old) != 0)
        say_trouble(path, "The file can't be replaced");
    else if (!S_ISREG(old.st_mode))
        say("%s: This is no plain file, so it can't be replaced. Work on an image file.", path);
    else if ((old.st_mode & (S_IWUSR | S_IWGRP | S_IWOTH)) == 0 || access(real, W_OK) != 0)
        say("%s: The image file is write-protected, so nothing was changed. If it may change, try chmod u+w.", path);
    else {
        struct traits traits = {old.st_mode & 07777, &old, NULL};
        saved = put_beside(path, real, bytes, &traits, rename);
    }
    free(real);
    return saved;
}

/* Whether nothing has that name yet; says so else. The name may be taken later still: rename_new sees to that. */
static bool is_new(const char *path)
{
    struct stat old;
    if (lstat(path, &old) != 0)
        return true;
    if (S_ISDIR(old.st_mode))
        say("%s: This is a folder. Name a file in it.", path);
    else
        say_there(path);
    return false;
}

static enum saved make(const char *path, const struct bytes *bytes, const time_t *changed)
{
    mode_t kept = umask(0);
    struct traits traits = {0666 & ~kept, NULL, changed};
    umask(kept);
    return is_new(path) ? put_beside(path, path, bytes, &traits, rename_new) : NOT_SAVED;
}

enum saved make_whole(const char *path, const struct bytes *bytes)
{
    return make(path, bytes, NULL);
}

enum saved make_dated(const char *path, const struct bytes *bytes, time_t changed)
{
    return make(path, bytes, &changed);
}
