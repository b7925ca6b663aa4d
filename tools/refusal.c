#include "refusal.h"

#include "balladmoor_help.h"
#include "say.h"

#include <stdio.h>

/* Number 5. Whoever asks here has no file open but the one in hand, so it is never for an open file. */
static const char *const denied[TASKS] = {
    [READING] = "The file was not opened for reading. That is a mistake in this program: please report it.",
    [RESCUING] = "The file's chain of clusters is too short, broken or without end, so its bytes can't be told. Take "
                 "the disk to the service bench.",
    [MATCHING] = "No file is opened while others are found. That is a mistake in this program: please report it.",
    [MAKING] = "The directory has no room for another name. Delete a file first, or take another disk.",
    [REPLACING] = "A file of that name is read-only. If it may be replaced, take that mark away first (mode -r).",
    [DELETING] = "The file is read-only. If it may go, take that mark away first (mode -r).",
    [RENAMING] = "The file is read-only. If it may have another name, take that mark away first (mode -r).",
    [TAKING_NAME] = "A file has that name already. Look at the list, and take another name.",
    [SETTING_MODE] = "Only these bits may be set: 01 read-only, 02 hidden, 04 system, 20 archive. Add up the "
                     "ones wanted.",
};

/* What is said otherwise of a pattern than of a name. */
static const char *pattern_sentence(uint32_t number)
{
    switch (number) {
    case BM_NO_MORE_FILES:
        return "No file on the disk matches this pattern. Look at the list without a pattern; *.* matches every file.";
    case BM_NOT_SOUND:
        return "The disk is broken, and a pattern wants a sound one. Keep a copy of it as it is, and take it to the "
               "service bench. Without a pattern list shows its files all the same, and get --rescue copies one by "
               "its name.";
    case BM_BAD_NAME:
        return "A pattern has 1 to 8 letters, digits, ? or $&#@!%'()-{}_, then perhaps a dot and up to 3 more; * may "
               "be the last of the 8 or of the 3. Take one such as DAY???.LOG or *.KEY.";
    default:
        return bm_sentence(number);
    }
}

const char *refusal_sentence(enum task task, uint32_t number)
{
    if (number == BM_ACCESS_DENIED)
        return denied[task];
    return task == MATCHING ? pattern_sentence(number) : bm_sentence(number);
}

/* What each finding is, and what its place counts. */
static const struct {
    const char *what, *place;
} findings[] = {
    [1] = {"it is of no kind: no kind byte at 512, or not that kind's length", "place"},
    [2] = {"the table's first bytes are wrong, or its two copies differ", "byte of the table"},
    [3] = {"a table entry with a value that means nothing", "cluster"},
    [4] = {"a directory entry that can't be, or a name or label twice", "slot"},
    [5] = {"a file's chain of clusters is too short, broken or without end", "slot"},
    [6] = {"a cluster in two files", "cluster"},
    [7] = {"a cluster in use that is in no file", "cluster"},
};

const char *finding_words(uint64_t checked, char *words)
{
    uint32_t finding = BM_NUMBER(checked);
    if (finding >= 1 && finding < sizeof findings / sizeof findings[0])
        snprintf(words, FINDING_ROOM, "finding %u at %s %u: %s", (unsigned)finding, findings[finding].place,
                 (unsigned)BM_VALUE(checked), findings[finding].what);
    else
        snprintf(words, FINDING_ROOM, "finding %u, which this program does not know", (unsigned)finding);
    return words;
}

/* Whom the sentence is about. */
static const char *subject(enum task task, const char *path, const char *name, uint32_t number)
{
    if (number == BM_NOT_OF_A_KIND || number == BM_NOT_SOUND)
        return path;
    return task == MATCHING && *name == '\0' ? "(an empty pattern)" : spoken(name);
}

int say_refusal(enum task task, const char *path, const char *name, uint32_t number, const struct bytes *image)
{
    const char *sentence = refusal_sentence(task, number), *whom = subject(task, path, name, number);
    char words[FINDING_ROOM];
    if (number == BM_NOT_SOUND)
        return say("%s: %s (refusal 41; %s)", whom, sentence,
                   finding_words(bm_check(image->at, image->length, NULL, 0), words));
    return say("%s: %s (refusal %u)", whom, sentence, (unsigned)number);
}
