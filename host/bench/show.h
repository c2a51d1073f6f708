/* A reply for people, as a sentence or as a list, and for programs, as a JSON object. All of it goes to standard output. */
#ifndef SHOW_H
#define SHOW_H

#include "reply.h"
#include "say.h"

/* Adds what an acknowledged reply says, with no monitor in front and no full stop. */
void add_sentence(struct text *text, const struct reply *reply);

/* Prints a good reply as a list: the sender, the kind, and each value in words. */
void show_list(const struct reply *reply);

/* More members of a JSON object, beside the reply's own. */
enum remark {
    REMARK_SIMULATED = 1, /* "simulated":true */
    REMARK_READ_BACK = 2, /* "read_back":true, and "unused":false where the next is not there */
    REMARK_UNUSED = 4     /* "unused":true */
};

/* Prints a packet as one JSON object on a line: the good reply, or the refusal with its meaning and the bytes. */
void show_json(const struct reply *reply, const uint8_t *packet, size_t len, unsigned remarks);

/* Prints the error that was said last as one JSON object on a line, with the exit status. */
void show_error(enum status status);

#endif
