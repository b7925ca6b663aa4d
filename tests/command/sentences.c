/* Every refusal number of the header has a sentence of its own, which says what is wrong and what to do. */
#include "balladmoor.h"

#include "refusal.h"

#include <stdio.h>
#include <string.h>

const char *const program_name = "sentences";

static const uint32_t numbers[] = {
    BM_INVALID_FUNCTION, BM_FILE_NOT_FOUND, BM_TOO_MANY_OPEN, BM_ACCESS_DENIED, BM_INVALID_HANDLE, BM_INVALID_ACCESS,
    BM_NO_MORE_FILES,    BM_NOT_OF_A_KIND,  BM_NOT_SOUND,     BM_BAD_NAME,      BM_BAD_STAMP,
};

enum { NUMBERS = sizeof numbers / sizeof numbers[0] };

/* Two sentences at least, and neither that of an unknown number nor that of one before it. */
static int is_good(enum task task, int n)
{
    const char *sentence = refusal_sentence(task, numbers[n]);
    size_t length = strlen(sentence);
    int k, own = strcmp(sentence, refusal_sentence(task, 99)) != 0;
    for (k = 0; k < n; k++)
        own = own && strcmp(sentence, refusal_sentence(task, numbers[k])) != 0;
    return own && sentence[length - 1] == '.' && strstr(sentence, ". ") != NULL;
}

int main(void)
{
    int task, n, passed = 0, failed = 0;
    for (task = 0; task < TASKS; task++)
        for (n = 0; n < NUMBERS; n++)
            if (is_good((enum task)task, n)) {
                passed++;
            } else {
                printf("task %d, number %u: %s\n", task, (unsigned)numbers[n],
                       refusal_sentence((enum task)task, numbers[n]));
                failed++;
            }
    printf("%d passed, %d failed\n", passed, failed);
    return failed == 0 ? 0 : 1;
}
