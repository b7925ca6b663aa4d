/* Linked in the place of the C library's fsync (--wrap=fsync): it fails for a folder. */
#define _XOPEN_SOURCE 700

#include <errno.h>
#include <sys/stat.h>

int __real_fsync(int file);
int __wrap_fsync(int file);

int __wrap_fsync(int file)
{
    struct stat what;
    if (fstat(file, &what) != 0 || !S_ISDIR(what.st_mode))
        return __real_fsync(file);
    errno = EIO;
    return -1;
}
