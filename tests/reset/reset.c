/* What a reset in the middle of a save leaves of a volume's files: tried on the disks themselves. */
#include "checks.h"

int main(void)
{
    try_cases();
    try_runs();
    return tally();
}
