/* Numbers in the words of a command. */
#include "numbers.h"

#include <string.h>

bool take_number(const char *text, unsigned most, unsigned *number)
{
    static const char digits[] = "0123456789abcdef";
    unsigned base = text[0] == '0' && (text[1] == 'x' || text[1] == 'X') ? 16 : 10;

    *number = 0;
    text += base == 16 ? 2 : 0;
    if (*text == '\0')
        return false;
    for (; *text != '\0'; text++) {
        char small = *text >= 'A' && *text <= 'F' ? (char)(*text - 'A' + 'a') : *text;
        const char *digit = strchr(digits, small);

        if (digit == NULL || (unsigned)(digit - digits) >= base)
            return false;
        *number = *number * base + (unsigned)(digit - digits);
        if (*number > most)
            return false;
    }
    return true;
}

bool take_digits(const char **text, int count, unsigned *number)
{
    *number = 0;
    for (; count > 0; count--, ++*text) {
        if (**text < '0' || **text > '9')
            return false;
        *number = *number * 10 + (unsigned)(**text - '0');
    }
    return true;
}

bool take_hour_and_minute(const char *text, unsigned *hour, unsigned *minute)
{
    return take_digits(&text, 2, hour) && *text++ == ':' && take_digits(&text, 2, minute) && *text == '\0';
}
