/* Numbers in the words of a command. */
#ifndef NUMBERS_H
#define NUMBERS_H

#include <stdbool.h>

/* Takes a decimal number or one of hexadecimal digits behind 0x, at most `most`. */
bool take_number(const char *text, unsigned most, unsigned *number);

/* Takes exactly `count` decimal digits at the start of a text. */
bool take_digits(const char **text, int count, unsigned *number);

/* Takes "HH:MM": two numbers of two digits each, and nothing behind them. */
bool take_hour_and_minute(const char *text, unsigned *hour, unsigned *minute);

#endif
