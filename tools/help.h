/* What the command says of itself. */
#ifndef HELP_H
#define HELP_H

/* The words that a verb takes, and more about it. */
struct help {
    const char *words, *text;
};

/* The verbs in short. */
extern const char help_text[];

/* Each verb at length. */
extern const struct help help_format, help_check, help_list, help_map, help_free, help_get, help_put, help_show,
    help_delete, help_rename, help_mode, help_help;

#endif
