#include "tally.h"

#include <stdio.h>

static int passed = 0;
static int failed = 0;

void expect(int holds, const char *what)
{
    printf("%s: %s\n", holds ? "ok" : "FAILED", what);
    if (holds)
        passed++;
    else
        failed++;
}

int tally(void)
{
    printf("%d passed, %d failed\n", passed, failed);
    return failed == 0 ? 0 : 1;
}
