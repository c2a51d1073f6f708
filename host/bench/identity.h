/* Which set is at the line: its serial number and its model. */
#ifndef IDENTITY_H
#define IDENTITY_H

#include "talk.h"

struct identity {
    struct reply serial, model; /* the replies that tell them */
};

/*
 * Reads a set's identity: the serial number, the model, and the serial number again, so that both are one set's. Where it can't be
 * read, adds why, and says in `ending` how the line left it.
 */
bool identity_read(struct bench *bench, struct identity *identity, struct text *why, enum ending *ending);

/* Whether two identities are the same. */
bool identity_is(const struct identity *one, const struct identity *other);

/* Whether a set has neither a serial number nor a model. */
bool identity_is_empty(const struct identity *identity);

/* Adds serial number and model. */
void add_identity(struct text *text, const struct identity *identity);

#endif
