/* What bench says of an erase, in words, as a JSON object, and by its exit status. */
#ifndef VERDICT_H
#define VERDICT_H

#include "identity.h"

enum verdict_kind {
    VERDICT_NOT_KNOWN,    /* an erase was sent, and what came of it is not known; stands first, for what nobody has set */
    VERDICT_NOT_ERASED,   /* no erase was sent, or the board refused it */
    VERDICT_CONTRADICTED, /* the board replied to the erase, and shows what an unused board does not */
    VERDICT_ERASED
};

struct verdict {
    enum verdict_kind kind;
    struct text why;     /* but for VERDICT_ERASED */
    const char *left;    /* what was left as it was */
    const char *todo;    /* what to do */
    bool is_met;         /* serial number and model of the set were read */
    struct identity set; /* then these */
    unsigned requests;   /* how many erase requests were sent */
};

/* Tells the verdict. Gives the exit status that stands for it. */
enum status verdict_tell(const struct bench *bench, const struct verdict *verdict);

/* Tells that the port could not be opened, where it was said why. */
enum status verdict_tell_unopened(const struct bench *bench);

/* From now on an interruption tells that the verdict is not known, and ends bench. */
void verdict_on_interruption(const struct bench *bench);

#endif
