/*
 * The calendar of the C library, for comparison. A file that includes it defines _DEFAULT_SOURCE or _GNU_SOURCE before, for timegm.
 */
#ifndef CALENDAR_H
#define CALENDAR_H

#include <time.h>

enum { NO_DAY = 7 };

/* The weekday of a day, Sunday 0, its year counted from 2000; NO_DAY for a year past 99, and where timegm makes another day. */
static inline unsigned weekday_of(unsigned year, unsigned month, unsigned day)
{
    struct tm tm = {.tm_year = 100 + (int)year, .tm_mon = (int)month - 1, .tm_mday = (int)day};

    if (year > 99 || timegm(&tm) == (time_t)-1)
        return NO_DAY;
    if (tm.tm_year != 100 + (int)year || tm.tm_mon != (int)month - 1 || tm.tm_mday != (int)day)
        return NO_DAY;
    return (unsigned)tm.tm_wday;
}

/* Whether a date write accepts a date, in the order of its message. */
static inline int date_is_good(const unsigned *date)
{
    unsigned weekday = weekday_of(date[0], date[1], date[2]);

    return weekday != NO_DAY && date[3] == weekday && date[4] <= 23 && date[5] <= 59 && date[6] == 0;
}

#endif
