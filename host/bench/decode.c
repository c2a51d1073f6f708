/* A reply packet, given as hexadecimal digits, in words. */
#include "decode.h"

#include "reply.h"
#include "show.h"

#include <ctype.h>
#include <stdio.h>

/* The bytes of hexadecimal digits, and the digits so far. */
struct bytes {
    uint8_t list[256];
    size_t digits;
};

static int digit_value(char c)
{
    if (c >= '0' && c <= '9')
        return c - '0';
    c = (char)toupper((unsigned char)c);
    return c >= 'A' && c <= 'F' ? c - 'A' + 10 : -1;
}

/* Adds the digits of a word; spaces are skipped. */
static enum status add_digits(struct bytes *bytes, const char *word)
{
    for (; *word != '\0'; word++) {
        int value = digit_value(*word);
        uint8_t *byte = &bytes->list[bytes->digits / 2];

        if (isspace((unsigned char)*word))
            continue;
        if (value < 0)
            return say_usage("give hexadecimal digits, as in: bench decode 01 30 30 41 42 30 34 02 42 45 03 01 0D",
                             "'%c' is not a hexadecimal digit", *word);
        if (bytes->digits == 2 * sizeof bytes->list)
            return say_usage("give one reply; it has at most 73 bytes", "these are more than %zu bytes", sizeof bytes->list);
        *byte = (uint8_t)(*byte * 16 + value);
        bytes->digits++;
    }
    return STATUS_DONE;
}

enum status decode_run(const struct options *options)
{
    struct bytes bytes = {.digits = 0};
    struct reply reply;
    bool is_good;

    for (int i = 1; i < options->count; i++)
        if (add_digits(&bytes, options->words[i]) != STATUS_DONE)
            return STATUS_USAGE;
    if (bytes.digits == 0 || bytes.digits % 2 != 0)
        return say_usage("give the reply's bytes, two digits each", "decode needs an even number of hexadecimal digits, not %zu",
                         bytes.digits);
    is_good = reply_read(&reply, bytes.list, bytes.digits / 2);
    if (options->json)
        show_json(&reply, bytes.list, bytes.digits / 2, 0);
    if (!is_good)
        return say_error(STATUS_NO_REPLY, "everything; decode talks to no board",
                         "check that the bytes are whole, and a reply, not a request", "this is no good reply, refusal %u: %s",
                         reply.kind, refusal_meaning(reply.kind));
    if (!options->json)
        show_list(&reply);
    return STATUS_DONE;
}
