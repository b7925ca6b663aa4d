#define _POSIX_C_SOURCE 200809L

#include "stamp.h"

#include "say.h"

#include <errno.h>
#include <stdlib.h>

/* known is NULL where a second has no date. */
static bool take(const char *whose, const struct tm *known, struct bm_stamp *stamp)
{
    int second;
    if (known == NULL) {
        say("%s: This time has no date. Set it right.", whose);
        return false;
    }
    second = known->tm_sec < 60 ? known->tm_sec : 59; /* A leap second has no step of its own. */
    *stamp = bm_stamp_of((uint32_t)known->tm_year + 1900, (uint32_t)known->tm_mon + 1, (uint32_t)known->tm_mday,
                         (uint32_t)known->tm_hour, (uint32_t)known->tm_min, (uint32_t)second);
    return true;
}

bool stamp_of_second(const char *whose, time_t second, struct bm_stamp *stamp)
{
    struct tm parts;
    return take(whose, localtime_r(&second, &parts), stamp);
}

static const char epoch_name[] = "SOURCE_DATE_EPOCH";

bool has_epoch(void)
{
    return getenv(epoch_name) != NULL;
}

bool stamp_of_now(struct bm_stamp *stamp)
{
    const char *epoch = getenv(epoch_name);
    struct tm parts;
    time_t second;
    char *end;
    if (epoch == NULL)
        return stamp_of_second("the clock", time(NULL), stamp);
    errno = 0;
    second = (time_t)strtoll(epoch, &end, 10);
    if (end == epoch || *end != '\0' || errno != 0) {
        say("%s: This is no number of seconds. Set it right, or unset it.", epoch_name);
        return false;
    }
    return take(epoch_name, gmtime_r(&second, &parts), stamp);
}
