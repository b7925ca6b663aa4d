/* The verbs that only read an image. */
#include "verbs.h"

#include "finding.h"
#include "json.h"
#include "map.h"
#include "matching.h"
#include "print.h"
#include "refusal.h"
#include "wholefile.h"

#include <stdlib.h>

enum status check(const struct order *order)
{
    struct bytes image;
    uint8_t out[BM_COUNTS_SIZE] = {0};
    uint64_t answer;
    if (!read_whole(order->words[0], &image))
        return NOT_DONE;
    answer = bm_check(IMAGE, out, sizeof out);
    if (order->options & AS_JSON)
        print_check_json(&image, answer, bm_counts_of(out));
    else if (BM_NUMBER(answer) == 0)
        print_counts(order->words[0], bm_counts_of(out));
    else
        say_finding(order->words[0], &image, answer);
    free(image.at);
    return BM_NUMBER(answer) == 0 ? DONE : NOT_SOUND;
}

/* The end of the others: frees the image, and says what was refused. */
static enum status end(enum task task, char **words, uint32_t number, struct bytes *image)
{
    enum status status = DONE;
    if (number != 0) {
        say_refusal(task, words[0], words[1], number, image);
        status = NOT_DONE;
    }
    free(image->at);
    return status;
}

/* Prints the files, or those that the pattern finds. Answers 0, or the number of the refusal. */
static uint32_t print_by(unsigned options, const char *path, const struct bytes *image, const char *pattern)
{
    if (options & AS_JSON)
        return print_list_json(image, pattern);
    if (options & AS_NAMES)
        return print_names(image, pattern);
    return print_list(path, image, pattern);
}

enum status list(const struct order *order)
{
    const char *pattern = order->words[1]; /* NULL where there is none */
    struct bytes image;
    uint32_t number = 0;
    if (!read_whole(order->words[0], &image))
        return NOT_DONE;
    if (pattern != NULL)
        number = match_number(&image, pattern);
    if (number == 0)
        number = print_by(order->options, order->words[0], &image, pattern);
    return end(pattern == NULL ? READING : MATCHING, order->words, number, &image);
}

enum status show_map(const struct order *order)
{
    struct bytes image;
    if (!read_whole(order->words[0], &image))
        return NOT_DONE;
    return end(READING, order->words, print_map(&image), &image);
}

enum status show_free(const struct order *order)
{
    struct bytes image;
    uint8_t out[BM_SPACE_SIZE];
    uint64_t answer;
    if (!read_whole(order->words[0], &image))
        return NOT_DONE;
    answer = bm_free_space(IMAGE, out, sizeof out);
    if (BM_NUMBER(answer) == 0)
        print_space(bm_space_of(out));
    return end(READING, order->words, BM_NUMBER(answer), &image);
}

enum status show(const struct order *order)
{
    struct bytes image, contents;
    uint32_t number;
    if (!read_whole(order->words[0], &image))
        return NOT_DONE;
    number = fetch_file(&image, order->words[1], &contents);
    if (number == 0)
        print_bytes(&contents);
    free(contents.at);
    return end(READING, order->words, number, &image);
}

enum status ask_mode(const struct order *order)
{
    struct bytes image;
    uint64_t answer;
    if (!read_whole(order->words[0], &image))
        return NOT_DONE;
    answer = bm_mode(IMAGE, NO_TABLE, NAME(order->words[1]), BM_MODE_ASK, 0);
    if (BM_NUMBER(answer) == 0)
        print_attribute(BM_VALUE(answer));
    return end(READING, order->words, BM_NUMBER(answer), &image);
}
