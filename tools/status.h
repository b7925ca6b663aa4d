/* How the command ends. */
#ifndef STATUS_H
#define STATUS_H

enum status {
    DONE = 0,
    NOT_DONE = 1, /* and nothing was changed */
    USED_WRONGLY = 2,
    NOT_CERTAIN = 3, /* done, but a cut of power may still undo it */
    NOT_SOUND = 4    /* check: the disk is not sound */
};

#endif
