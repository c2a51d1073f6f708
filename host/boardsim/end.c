/* How boardsim ends. */
#include "end.h"

#include <errno.h>
#include <stdarg.h>
#include <stdio.h>
#include <stdlib.h>
#include <string.h>

void end_with(enum status status, const char *format, ...)
{
    va_list values;

    fputs("boardsim: ", stderr);
    va_start(values, format);
    vfprintf(stderr, format, values);
    va_end(values);
    fputc('\n', stderr);
    if (status == STATUS_USAGE)
        fputs("boardsim --help tells more.\n", stderr);
    exit(status);
}

void end_system(const char *doing, const char *with)
{
    end_with(STATUS_SYSTEM, "%s %s: %s", doing, with, strerror(errno));
}
