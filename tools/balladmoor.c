/* The command for members and the service bench: diskette images made, checked, read and changed by the volume code. */
#include "balladmoor.h"

#include "help.h"
#include "say.h"
#include "standard.h"
#include "verbs.h"

#include <limits.h>
#include <stdio.h>

const char *const program_name = "balladmoor";

static enum status help(const struct order *order);

/* How many words each takes, and which options. */
static const struct verb {
    const char *name;
    int least, most;
    unsigned options;
    enum status (*run)(const struct order *order);
    const struct help *help;
} verbs[] = {
    {"format", 2, 2, 0, format, &help_format},
    {"check", 1, 1, AS_JSON, check, &help_check},
    {"list", 1, 2, AS_NAMES | AS_JSON, list, &help_list},
    {"map", 1, 1, 0, show_map, &help_map},
    {"free", 1, 1, 0, show_free, &help_free},
    {"get", 2, INT_MAX, KEEP_DATES | RESCUE, get, &help_get},
    {"put", 3, INT_MAX, KEEP_DATES, put, &help_put},
    {"show", 2, 2, 0, show, &help_show},
    {"delete", 2, 2, 0, delete_file, &help_delete},
    {"rename", 3, 3, 0, rename_file, &help_rename},
    {"mode", 2, INT_MAX, 0, mode, &help_mode},
    {"help", 1, 1, 0, help, &help_help},
};

static const struct {
    const char *word;
    unsigned option;
} options[] = {
    {"--keep-dates", KEEP_DATES},
    {"--names", AS_NAMES},
    {"--json", AS_JSON},
    {"--rescue", RESCUE},
};

/* ---- Help ---- */

/* The verb of that name, or NULL, with a sentence. */
static const struct verb *find_verb(const char *name)
{
    size_t n;
    for (n = 0; n < sizeof verbs / sizeof verbs[0]; n++)
        if (strcmp(name, verbs[n].name) == 0)
            return &verbs[n];
    say("%s: There is no such verb. See balladmoor --help.", name);
    return NULL;
}

static enum status help(const struct order *order)
{
    const struct verb *verb = find_verb(order->words[0]);
    if (verb == NULL)
        return USED_WRONGLY;
    printf("balladmoor %s %s\n\n%s", verb->name, verb->help->words, verb->help->text);
    return DONE;
}

static bool is_help(const char *word)
{
    return strcmp(word, "-h") == 0 || strcmp(word, "--help") == 0;
}

/* Words that stand alone. */
static bool has_said(const char *word)
{
    if (is_help(word))
        fputs(help_text, stdout);
    else if (strcmp(word, "--version") == 0)
        printf("balladmoor %s\n", BM_VERSION);
    else
        return false;
    return true;
}

/* ---- The command line ---- */

static unsigned option_of(const char *word)
{
    size_t n;
    for (n = 0; n < sizeof options / sizeof options[0]; n++)
        if (strcmp(word, options[n].word) == 0)
            return options[n].option;
    return 0;
}

/* Takes the options, which stand before the other words; -- ends them. */
static bool take_options(const struct verb *verb, struct order *order)
{
    while (order->count > 0 && strncmp(*order->words, "--", 2) == 0) {
        const char *word = *order->words++;
        unsigned option = option_of(word);
        order->count--;
        if (strcmp(word, "--") == 0)
            return true;
        if ((verb->options & option) == 0) {
            say("%s: %s has no such option. See balladmoor help %s.", word, verb->name, verb->name);
            return false;
        }
        order->options |= option;
    }
    return true;
}

static enum status run(const struct verb *verb, struct order *order)
{
    if (order->count == 1 && is_help(*order->words)) {
        struct order verb_help = {(char *[]){(char *)verb->name, NULL}, 1, 0};
        return help(&verb_help);
    }
    if (!take_options(verb, order))
        return USED_WRONGLY;
    if (order->count >= verb->least && order->count <= verb->most)
        return verb->run(order);
    say("%s: It takes %s (see balladmoor help %s).", verb->name, verb->help->words, verb->name);
    return USED_WRONGLY;
}

static enum status obey(int count, char **words)
{
    const struct verb *verb;
    struct order order = {words + 1, count - 1, 0};
    if (count < 1) {
        say("Say what to do. See balladmoor --help.");
        return USED_WRONGLY;
    }
    if (count == 1 && has_said(words[0]))
        return DONE;
    verb = find_verb(words[0]);
    return verb == NULL ? USED_WRONGLY : run(verb, &order);
}

int main(int count, char **words)
{
    enum status status;
    hold_standard_files();
    status = obey(count - 1, words + 1);
    if ((fflush(stdout) != 0 || ferror(stdout)) && status == DONE) {
        say_trouble("standard output", "What was to be printed could not be written");
        return NOT_DONE; /* What prints changes nothing. */
    }
    return status;
}
