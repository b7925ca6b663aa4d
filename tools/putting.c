/* The verb put: files of the machine are copied to an image, all or none. */
#define _POSIX_C_SOURCE 200809L

#include "verbs.h"

#include "balladmoor.h"
#include "refusal.h"
#include "say.h"
#include "stamp.h"
#include "wholefile.h"

#include <stdlib.h>
#include <strings.h>

/* One file to be put. */
struct copy {
    const char *name, *from;
    bool dated; /* with the date of the file that it comes from */
};

/* ---- Its stamp ---- */

static bool find_stamp(const struct copy *copy, struct bm_stamp *stamp)
{
    time_t changed;
    if (!copy->dated)
        return stamp_of_now(stamp);
    return find_time(copy->from, &changed) && stamp_of_second(copy->from, changed, stamp);
}

/* Says whose date is out of its ranges. */
static void say_bad_stamp(const struct copy *copy)
{
    if (copy->dated)
        say("%s: The file's date is not in the years 1980 to 2099. Leave --keep-dates out. (refusal 43)", copy->from);
    else if (has_epoch())
        say("SOURCE_DATE_EPOCH: Its date is not in the years 1980 to 2099. Set it right, or unset it. (refusal 43)");
    else
        say("The clock's date is not in the years 1980 to 2099. Set the clock. (refusal 43)");
}

/* ---- In memory ---- */

static void say_refused(const char *path, const struct copy *copy, uint32_t number, const struct bytes *image)
{
    uint64_t there = bm_view_number(image->at, image->length, NAME(copy->name), 0);
    if (number == BM_BAD_STAMP)
        say_bad_stamp(copy);
    else
        say_refusal(BM_NUMBER(there) == 0 ? REPLACING : MAKING, path, copy->name, number, image);
}

static bool store(const char *path, struct bytes *image, const struct copy *copy, const struct bytes *contents)
{
    struct bm_stamp stamp;
    size_t stored;
    uint32_t number;
    if (!find_stamp(copy, &stamp))
        return false;
    number = store_file(image, copy->name, contents, &stamp, &stored);
    if (number != 0)
        say_refused(path, copy, number, image);
    else if (stored < contents->length)
        say("%s: The disk is full: it has room for %zu of %zu bytes, so nothing was changed. Delete a file, or take "
            "another disk.",
            copy->name, stored, contents->length);
    return number == 0 && stored == contents->length;
}

static bool put_one(const char *path, struct bytes *image, const struct copy *copy)
{
    struct bytes contents;
    bool put;
    if (!read_whole(copy->from, &contents))
        return false;
    put = store(path, image, copy, &contents);
    free(contents.at);
    return put;
}

/* ---- The verb ---- */

static const char *last_part(const char *path)
{
    const char *slash = strrchr(path, '/');
    return slash == NULL ? path : slash + 1;
}

/* Whether one of the later files has the name of the first; says so. */
static bool is_twice(char **files)
{
    char **later;
    for (later = files + 1; *later != NULL; later++)
        if (strcasecmp(last_part(*files), last_part(*later)) == 0) {
            say("%s: %s has the same name. Put one of them under another name.", *later, *files);
            return true;
        }
    return false;
}

/* Whether the words are used well; says why not. Under their own names no file may come twice, or from nowhere. */
static bool are_good(const struct order *order, bool own_names)
{
    char **files = order->words + 2;
    if (!own_names && order->count > 3) {
        say("%s: Several files are put under their own names. Give . for NAME.", order->words[1]);
        return false;
    }
    for (; *files != NULL; files++) {
        if (is_standard(*files) && (own_names || order->options & KEEP_DATES)) {
            say("-: Standard input has no name and no date. Give a NAME, and leave --keep-dates out.");
            return false;
        }
        if (own_names && is_twice(files))
            return false;
    }
    return true;
}

enum status put(const struct order *order)
{
    bool own_names = strcmp(order->words[1], ".") == 0;
    struct bytes image;
    enum status status;
    char **from;
    if (!are_good(order, own_names))
        return USED_WRONGLY;
    status = take_image(order->words[0], &image);
    if (status != DONE)
        return status;
    for (from = order->words + 2; *from != NULL; from++) {
        struct copy copy = {own_names ? last_part(*from) : order->words[1], *from, order->options & KEEP_DATES};
        if (!put_one(order->words[0], &image, &copy)) {
            free(image.at);
            return NOT_DONE;
        }
    }
    return keep_image(order->words[0], &image);
}
