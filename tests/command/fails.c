/* Loaded before the C library: its call CALL fails, and errno is WHY. With DIES it ends the program at once, as a cut
 * of power does; with SWAPS it ends well, but another program has given new.img the name disk.img just before. With
 * FOLDERS it fails for a folder alone. A sentence on standard error is written all the same. */
#define _GNU_SOURCE
#include <errno.h>
#include <sys/syscall.h>
#ifdef FOLDERS
#include <sys/stat.h>
#endif

#ifndef WHY
#define WHY EIO
#endif

/* Not from headers, which may declare CALL. */
_Noreturn void _Exit(int status);
long syscall(long number, ...);
long CALL(long first, long second, long third);

long CALL(long first, long second, long third)
{
    enum { STANDARD_ERROR = 2 };
#if defined DIES
    _Exit(99);
#elif defined SWAPS
    return syscall(SYS_rename, "new.img", "disk.img");
#elif defined FOLDERS
    struct stat file;
    if (fstat((int)first, &file) == 0 && !S_ISDIR(file.st_mode))
        return 0;
#endif
    if (first == STANDARD_ERROR)
        return syscall(SYS_write, first, second, third);
    errno = WHY;
    return -1;
}
