#include "marks.h"

#include "balladmoor.h"

const struct mark marks[MARKS] = {
    {BM_READ_ONLY, 'R', "read-only", "read_only"},
    {BM_HIDDEN, 'H', "hidden", "hidden"},
    {BM_SYSTEM, 'S', "system", "system"},
    {BM_ARCHIVE, 'A', "archive", "archive"},
};
