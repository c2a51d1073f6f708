/* The values of a reply as a list of named fields, in the packet's order. */
#ifndef FIELDS_H
#define FIELDS_H

#include "reply.h"

#include <stdbool.h>

struct field {
    const char *key;
    unsigned number;
    int digits;     /* how many hexadecimal digits the number has in a packet */
    char words[64]; /* what the number means; empty where it is only a number */
};

#define FIELDS_MAX 9

/* How many numbers of a program are reserved. */
#define RESERVED_NUMBERS 8

struct fields {
    struct field list[FIELDS_MAX];
    size_t count;
    bool has_bytes;          /* the reply carries a serial number, a model or a tag */
    const uint8_t *reserved; /* the RESERVED_NUMBERS of a program; a null pointer where the reply carries none */
};

/* The fields of a good reply, without its sender and its kind. */
struct fields fields_of(const struct reply *reply);

#endif
