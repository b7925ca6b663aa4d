#define _POSIX_C_SOURCE 200809L

#include "standard.h"

#include <fcntl.h>
#include <stdlib.h>
#include <unistd.h>

void hold_standard_files(void)
{
    int number;
    for (number = STDIN_FILENO; number <= STDERR_FILENO; number++)
        if (fcntl(number, F_GETFD) < 0 && open("/dev/null", number == STDIN_FILENO ? O_WRONLY : O_RDONLY) != number)
            exit(1);
}
