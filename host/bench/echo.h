/*
 * Whether all that is older has gone from the line.
 *
 * An echo is 120 ms of silence and then a Get of a random pair of page and code that no board lists. Every board answers it with
 * that page and code, in standby too, and it changes nothing. On a line that keeps its order, all that was sent before the Get has
 * come when its answer has.
 */
#ifndef ECHO_H
#define ECHO_H

#include "talk.h"

/* How an echo ended. */
enum echo {
    ECHO_ANSWERED,
    ECHO_SILENT,   /* without its answer until the time limit: the board is off, or it erases */
    ECHO_RESTLESS, /* without 120 ms of silence to send it in */
    ECHO_CLOSED,   /* with the end of the line */
    ECHO_UNSENT    /* before it was sent whole */
};

/* Takes a packet that came and is no echo. */
typedef void taker(const struct packet *packet, void *about);

/*
 * Sends echoes, each with a new pair and a new silence, until one is answered, at most limit_ms after the first one. A board that
 * lost power in an erase is silent until it has finished it, and so the echo is repeated.
 */
enum echo echo_run(struct bench *bench, long long limit_ms, taker *take, void *about);

/* Adds why an echo has no answer. */
void echo_add_failure(struct text *text, enum echo echo, long long limit_ms);

#endif
