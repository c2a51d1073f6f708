/* One run of bench: its options, its line, and how requests and their failures are told. */
#ifndef TALK_H
#define TALK_H

#include "line.h"
#include "options.h"
#include "say.h"

struct bench {
    struct options options;
    struct line line;
    struct text who; /* "monitor 3", "simulated monitor 1", "all monitors" */
};

/* Opens the port that the options name. Gives STATUS_DONE, or says why not. */
enum status talk_open(struct bench *bench);
void talk_close(struct bench *bench);

/* Writes a request's packet. Gives STATUS_DONE, or says why there is none. */
enum status talk_encode(const struct request *request, struct packet *packet);

/* Sends a request to one monitor and waits for its answer, at most limit_ms. */
enum status talk_ask(struct bench *bench, const struct request *request, long long limit_ms, struct exchange *exchange);

/* The time limit for a reply: the option's, or else `usual_ms`. */
long long talk_limit(const struct bench *bench, long long usual_ms);
enum { REPLY_LIMIT_MS = 2000 };

/*
 * Sends a request that only reads, again and again until it is answered or talk_read_limit is over: the time of three tries, or the
 * option's, whichever is longer.
 */
void talk_read(struct bench *bench, const struct request *request, struct exchange *exchange);
long long talk_read_limit(const struct bench *bench);

/* Connects again where the port is a TCP connection that has ended, at most until the moment `until`; says whether it did. */
bool talk_reopen(struct bench *bench, long long until);

/* Whether the board is the simulated one inside the process. */
bool talk_is_simulated(const struct bench *bench);

/* The port in words. */
const char *talk_port_words(const struct bench *bench);

/* Adds why an exchange has no answer. */
void talk_add_failure(struct text *text, const struct bench *bench, const struct exchange *exchange, long long limit_ms);

/* Prints a damaged reply as JSON, where JSON is asked for. */
void talk_show_damage(const struct bench *bench, const struct exchange *exchange);

/* Runs one request to the end: prints what the board says, or says what went wrong. */
enum status talk_run(struct bench *bench, const struct request *request);

#endif
