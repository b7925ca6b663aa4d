/* The verb get: files of an image are copied to the machine, all or none. */
#define _POSIX_C_SOURCE 200809L

#include "verbs.h"

#include "entries.h"
#include "matching.h"
#include "refusal.h"
#include "say.h"
#include "wholefile.h"

#include <stdio.h>
#include <stdlib.h>
#include <sys/stat.h>
#include <unistd.h>

/* The files, and where they go. */
struct copies {
    const struct bytes *image;
    char **words; /* names and patterns */
    int word_count;
    struct chosen *files; /* what the words ask for */
    int count;
    const char *to; /* NULL: each to its own name here */
    bool to_folder, dated;
    bool rescued; /* off a disk that need not be sound */
};

static uint32_t fetch(const struct copies *copies, const char *name, struct bytes *contents)
{
    return copies->rescued ? rescue_file(copies->image, name, contents) : fetch_file(copies->image, name, contents);
}

static bool is_folder(const char *path)
{
    struct stat there;
    return stat(path, &there) == 0 && S_ISDIR(there.st_mode);
}

/* The path of a copy, from malloc. */
static char *path_of(const struct copies *copies, const char *name)
{
    const char *folder = copies->to_folder ? copies->to : "";
    const char *last = copies->to == NULL || copies->to_folder ? name : copies->to;
    const char *between = *folder == '\0' || folder[strlen(folder) - 1] == '/' ? "" : "/";
    struct bytes path = new_bytes(strlen(folder) + strlen(last) + 1);
    sprintf((char *)path.at, "%s%s%s", folder, between, last);
    return (char *)path.at;
}

/* When a file of the image was last changed, in local time. False if its stamp is out of its ranges. */
static bool find_stamp(const struct bytes *image, const char *name, time_t *changed)
{
    struct entry entry;
    uint64_t date, time;
    struct tm parts = {0};
    entry.slot = slot_of(image, name);
    if (!next_entry(image, &entry))
        return false;
    date = date_of(&entry);
    time = time_of(&entry);
    parts.tm_year = (int)(BM_VALUE(date) / 10000) - 1900;
    parts.tm_mon = (int)(BM_VALUE(date) / 100 % 100) - 1;
    parts.tm_mday = (int)(BM_VALUE(date) % 100);
    parts.tm_hour = (int)(BM_VALUE(time) / 10000);
    parts.tm_min = (int)(BM_VALUE(time) / 100 % 100);
    parts.tm_sec = (int)(BM_VALUE(time) % 100);
    parts.tm_isdst = -1;
    *changed = mktime(&parts);
    return BM_NUMBER(date) == 0 && BM_NUMBER(time) == 0;
}

/* ---- Files ---- */

static enum status save(const struct copies *copies, const char *name)
{
    struct bytes contents;
    char *path = path_of(copies, name);
    time_t changed;
    enum saved saved;
    fetch(copies, name, &contents);
    if (copies->dated && find_stamp(copies->image, name, &changed))
        saved = make_dated(path, &contents, changed);
    else
        saved = make_whole(path, &contents);
    free(contents.at);
    free(path);
    return status_of(saved);
}

/* Removes the first so many copies again. */
static void undo(const struct copies *copies, int count)
{
    while (count-- > 0) {
        char *path = path_of(copies, copies->files[count].name);
        unlink(path);
        free(path);
    }
}

static enum status save_all(const struct copies *copies)
{
    enum status status = DONE;
    int n;
    for (n = 0; n < copies->count; n++) {
        enum status one = save(copies, copies->files[n].name);
        if (one == NOT_DONE) {
            undo(copies, n);
            return NOT_DONE;
        }
        if (one == NOT_CERTAIN)
            status = NOT_CERTAIN;
    }
    return status;
}

/* ---- Standard output ---- */

static enum status print_all(const struct copies *copies)
{
    struct bytes contents;
    int n;
    for (n = 0; n < copies->count; n++) {
        fetch(copies, copies->files[n].name, &contents);
        fwrite(contents.at, 1, contents.length, stdout);
        free(contents.at);
    }
    return DONE;
}

/* ---- The words ---- */

/* IMAGE NAME, IMAGE NAME TO or IMAGE NAME NAME.. FOLDER, with patterns for names. */
static void take_words(const struct order *order, struct copies *copies)
{
    bool has_to = order->count > 2;
    copies->words = order->words + 1;
    copies->word_count = order->count - (has_to ? 2 : 1);
    copies->to = has_to ? order->words[order->count - 1] : NULL;
    copies->to_folder = copies->to != NULL && is_folder(copies->to);
    copies->dated = (order->options & KEEP_DATES) != 0;
    copies->rescued = (order->options & RESCUE) != 0;
}

/* The first word that is a pattern, or NULL. */
static const char *first_pattern(const struct copies *copies)
{
    int n;
    for (n = 0; n < copies->word_count; n++)
        if (is_pattern(copies->words[n]))
            return copies->words[n];
    return NULL;
}

/* Whether TO, which is given, must be a folder: a script can't tell how many files a pattern finds. A TO that could be
 * a pattern is taken for one whose folder was forgotten, not for the name of a copy. */
static bool needs_folder(const struct copies *copies)
{
    return copies->word_count > 1 || first_pattern(copies) != NULL ||
           (is_pattern(copies->to) && strchr(copies->to, '/') == NULL);
}

/* Whether the words are used well; says why not. */
static bool are_good(const struct copies *copies)
{
    bool prints = copies->to != NULL && is_standard(copies->to);
    if (copies->rescued && first_pattern(copies) != NULL)
        say("%s: A pattern wants a sound disk, and --rescue takes names alone. See them by list without a pattern, and "
            "name each file.",
            first_pattern(copies));
    else if (copies->to != NULL && !copies->to_folder && !prints && needs_folder(copies))
        say("%s: This is no folder. Several files, or those of a pattern in quotes, go to a folder that is there, such "
            "as . or to -.",
            copies->to);
    else if (copies->dated && prints)
        say("-: Standard output has no date. Leave --keep-dates out.");
    else if (copies->dated && copies->rescued)
        say("--rescue: It brings off a file's bytes alone. Leave --keep-dates out.");
    else
        return true;
    return false;
}

/* ---- The verb ---- */

static bool choose(struct copies *copies, const char *path)
{
    struct choice choice;
    bool chosen = choose_files(path, copies->image, copies->words, copies->word_count, &choice);
    copies->files = choice.files;
    copies->count = choice.count;
    return chosen;
}

/* Whether all of them can be read; says of the first that can't why. */
static bool can_read(const struct copies *copies, const char *path)
{
    struct bytes contents;
    int n;
    for (n = 0; n < copies->count; n++) {
        const char *name = copies->files[n].name;
        uint32_t number = fetch(copies, name, &contents);
        free(contents.at);
        if (number != 0) {
            say_refusal(copies->rescued ? RESCUING : READING, path, name, number, copies->image);
            return false;
        }
    }
    return true;
}

/* Where the disk is not sound, says once that files were rescued off it. */
static void say_rescued(const struct copies *copies, const char *path)
{
    uint64_t checked = bm_check(copies->image->at, copies->image->length, NULL, 0);
    char words[FINDING_ROOM];
    if (BM_NUMBER(checked) != 0)
        say("%s: The disk is not sound: %s was read by its own chain. Look whether the bytes are right. (%s)", path,
            copies->count == 1 ? copies->files[0].name : "each file", finding_words(checked, words));
}

enum status get(const struct order *order)
{
    struct copies copies;
    struct bytes image;
    enum status status = NOT_DONE;
    take_words(order, &copies);
    if (!are_good(&copies))
        return USED_WRONGLY;
    if (!read_whole(order->words[0], &image))
        return NOT_DONE;
    copies.image = &image;
    if (choose(&copies, order->words[0]) && can_read(&copies, order->words[0]))
        status = copies.to != NULL && is_standard(copies.to) ? print_all(&copies) : save_all(&copies);
    if (copies.rescued && status != NOT_DONE)
        say_rescued(&copies, order->words[0]);
    free(copies.files);
    free(image.at);
    return status;
}
