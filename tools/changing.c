/* The verbs that make or change an image. It is changed in memory, and its file is replaced only if all went well. */
#include "verbs.h"

#include "balladmoor.h"
#include "marks.h"
#include "refusal.h"
#include "say.h"

#include <ctype.h>
#include <stdio.h>
#include <stdlib.h>

/* ---- What they share ---- */

enum status status_of(enum saved saved)
{
    switch (saved) {
    case SAVED:
        return DONE;
    case NOT_FLUSHED:
        return NOT_CERTAIN;
    default:
        return NOT_DONE;
    }
}

enum status take_image(const char *path, struct bytes *image)
{
    if (is_standard(path)) {
        say("-: An image that is changed must be a file. Name it, or take ./- for a file of that name.");
        return USED_WRONGLY;
    }
    return read_to_replace(path, image) ? DONE : NOT_DONE;
}

enum status keep_image(const char *path, struct bytes *image)
{
    enum status status = status_of(replace_whole(path, image));
    free(image->at);
    return status;
}

/* The end of a verb on one file: says what was refused, or keeps the image. */
static enum status end(enum task task, const char *path, const char *name, uint32_t number, struct bytes *image)
{
    if (number == 0)
        return keep_image(path, image);
    say_refusal(task, path, name, number, image);
    free(image->at);
    return NOT_DONE;
}

/* ---- format ---- */

static const struct {
    const char *size, *byte;
    uint32_t kind;
    size_t length;
} kinds[] = {
    {"160", "FE", BM_KIND_FE, BM_IMAGE_SIZE_FE},
    {"180", "FC", BM_KIND_FC, BM_IMAGE_SIZE_FC},
    {"320", "FF", BM_KIND_FF, BM_IMAGE_SIZE_FF},
    {"360", "FD", BM_KIND_FD, BM_IMAGE_SIZE_FD},
};

static enum status make_image(const char *path, const struct bytes *image)
{
    if (!is_standard(path))
        return status_of(make_whole(path, image));
    fwrite(image->at, 1, image->length, stdout);
    return DONE;
}

enum status format(const struct order *order)
{
    const char *kind = order->words[0];
    size_t n;
    for (n = 0; n < sizeof kinds / sizeof kinds[0]; n++)
        if (strcmp(kind, kinds[n].size) == 0 || strcmp(kind, kinds[n].byte) == 0) {
            struct bytes image = new_bytes(kinds[n].length);
            uint32_t number = BM_NUMBER(bm_format(IMAGE, kinds[n].kind));
            enum status status = number == 0 ? make_image(order->words[1], &image) : NOT_DONE;
            free(image.at);
            return status;
        }
    say("%s: There is no such kind. Take 160, 180, 320 or 360, or the byte FE, FC, FF or FD.", kind);
    return USED_WRONGLY;
}

/* ---- delete and rename ---- */

enum status delete_file(const struct order *order)
{
    char **words = order->words;
    struct bytes image;
    enum status status = take_image(words[0], &image);
    if (status != DONE)
        return status;
    return end(DELETING, words[0], words[1], BM_NUMBER(bm_delete(IMAGE, NO_TABLE, NAME(words[1]))), &image);
}

/* Whether the file has the mark; none has it that is not there. */
static bool has_mark(struct bytes image, const char *name, uint32_t bit)
{
    return (BM_VALUE(bm_mode(IMAGE, NO_TABLE, NAME(name), BM_MODE_ASK, 0)) & bit) != 0;
}

/* The call does not say which of the two names it refused. */
static enum status refuse_rename(char **words, uint32_t number, struct bytes image)
{
    bool old_is_bad = BM_NUMBER(bm_view_number(IMAGE, NAME(words[1]), 0)) == BM_BAD_NAME;
    if (number == BM_BAD_NAME && !old_is_bad)
        return end(RENAMING, words[0], words[2], number, &image);
    if (number == BM_ACCESS_DENIED && !has_mark(image, words[1], BM_READ_ONLY))
        return end(TAKING_NAME, words[0], words[2], number, &image);
    return end(RENAMING, words[0], words[1], number, &image);
}

enum status rename_file(const struct order *order)
{
    char **words = order->words;
    struct bytes image;
    uint32_t number;
    enum status status = take_image(words[0], &image);
    if (status != DONE)
        return status;
    number = BM_NUMBER(bm_rename(IMAGE, NO_TABLE, NAME(words[1]), NAME(words[2])));
    return number == 0 ? keep_image(words[0], &image) : refuse_rename(words, number, image);
}

/* ---- mode ---- */

/* The bits that a mode takes away, and those that it gives. */
struct change {
    uint32_t away, given;
};

static bool take_digits(const char *word, struct change *change)
{
    if (*word == '\0' || strlen(word) > 2 || strspn(word, "0123456789ABCDEFabcdef") != strlen(word))
        return false;
    change->away = ~(uint32_t)0;
    change->given = (uint32_t)strtoul(word, NULL, 16);
    return true;
}

/* The bit of a letter, 0 for one that is none. */
static uint32_t bit_of(char letter)
{
    unsigned n;
    for (n = 0; n < MARKS; n++)
        if (marks[n].letter == toupper((unsigned char)letter))
            return marks[n].bit;
    return 0;
}

/* A word such as +r or -hs; a later one counts where two speak of the same mark. */
static bool take_letters(const char *word, struct change *change)
{
    const char *letter = word + 1;
    if ((*word != '+' && *word != '-') || *letter == '\0')
        return false;
    for (; *letter != '\0'; letter++) {
        uint32_t bit = bit_of(*letter);
        if (bit == 0)
            return false;
        change->away |= bit;
        change->given = *word == '+' ? change->given | bit : change->given & ~bit;
    }
    return true;
}

static bool take_marks(char **words, struct change *change)
{
    change->away = change->given = 0;
    if (words[1] == NULL && take_digits(words[0], change))
        return true;
    for (; *words != NULL; words++)
        if (!take_letters(*words, change)) {
            say("%s: Marks are + or - with letters of r read-only, h hidden, s system and a archive, or one sum in "
                "hex, "
                "such as 01.",
                *words);
            return false;
        }
    return true;
}

static enum status set_mode(char **words, const struct change *change)
{
    struct bytes image;
    uint64_t answer;
    uint32_t attribute;
    enum status status = take_image(words[0], &image);
    if (status != DONE)
        return status;
    answer = bm_mode(IMAGE, NO_TABLE, NAME(words[1]), BM_MODE_ASK, 0);
    attribute = (BM_VALUE(answer) & ~change->away) | change->given;
    if (BM_NUMBER(answer) == 0)
        answer = bm_mode(IMAGE, NO_TABLE, NAME(words[1]), BM_MODE_SET, attribute);
    return end(SETTING_MODE, words[0], words[1], BM_NUMBER(answer), &image);
}

enum status mode(const struct order *order)
{
    struct change change;
    if (order->count == 2)
        return ask_mode(order);
    return take_marks(order->words + 2, &change) ? set_mode(order->words, &change) : USED_WRONGLY;
}
