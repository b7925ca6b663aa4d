/* The listing program: reads a system area from standard input and prints its listing. What stands behind the longest
 * kind's area is not read. Exit status: 0 printed, 1 not printed. */
#define _POSIX_C_SOURCE 200809L

#include "listing.h"

#include "balladmoor.h"
#include "say.h"
#include "standard.h"

#include <errno.h>
#include <stdbool.h>
#include <unistd.h>

const char *const program_name = "listing";

static uint8_t area[BM_SYSTEM_SIZE_MOST], lines[LISTING_ROOM];

/* Reads to the end, or until area is full. */
static bool read_area(size_t *length)
{
    ssize_t count;
    *length = 0;
    do {
        count = read(STDIN_FILENO, area + *length, sizeof area - *length);
        if (count < 0 && errno != EINTR)
            return false;
        if (count > 0)
            *length += (size_t)count;
    } while (count != 0);
    return true;
}

static bool write_lines(size_t length)
{
    size_t done = 0;
    while (done < length) {
        ssize_t count = write(STDOUT_FILENO, lines + done, length - done);
        if (count < 0 && errno != EINTR)
            return false;
        if (count > 0)
            done += (size_t)count;
    }
    return true;
}

int main(void)
{
    size_t length;
    hold_standard_files();
    if (!read_area(&length))
        return say_trouble("standard input", "It can't be read");
    if (!write_lines(listing_put(area, length, lines, sizeof lines)))
        return say_trouble("standard output", "The listing can't be written");
    return 0;
}
