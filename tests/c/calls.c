/* Each call from C. Each check prints a line. */
#include "checks.h"

int main(void)
{
    try_volumes();
    try_worn();
    try_find();
    try_files();
    try_contents();
    try_spare();
    return tally();
}
