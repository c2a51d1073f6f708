/* Whether all that is older has gone from the line. */
#define _DEFAULT_SOURCE /* getentropy */

#include "echo.h"

#include "deadline.h"

#include <unistd.h>

enum {
    TRY_MS = 500,     /* the wait for one echo before the next */
    SILENCE_MS = 300, /* the least time that a silence may take to come */
    PAIRS = 256 * 256 /* of page and code; a pair's number is 256 times its page and its code */
};

/* The echoes of one call that may still be answered. */
struct echoes {
    unsigned pairs[16];
    size_t sent;
};

enum { KEPT = sizeof((struct echoes *)NULL)->pairs / sizeof(unsigned) };

/* Whether boards list pairs of this page. */
static bool is_listed(unsigned pair)
{
    unsigned page = pair / 256;

    return page == 0x00 || page == 0x02 || page == 0x10 || page == ERASE_PAGE;
}

/* Takes a pair that no board lists and that this run of bench has not used; says whether the system gave random numbers. */
static bool take_pair(unsigned *pair)
{
    static bool is_used[PAIRS];
    uint8_t random[2];

    do {
        if (getentropy(random, sizeof random) != 0) {
            say_note("the system gives no random numbers");
            return false;
        }
        *pair = 256u * random[0] + random[1];
    } while (is_listed(*pair) || is_used[*pair]);
    is_used[*pair] = true;
    return true;
}

/* Sends the next echo; says whether it went out. */
static bool send_next(struct bench *bench, struct echoes *echoes)
{
    struct request request = {.kind = STATION_REPLY_GET, .dest = bench->options.dest, .tag = ""};
    struct packet packet;
    unsigned pair;

    if (!take_pair(&pair))
        return false;
    request.page = (uint8_t)(pair / 256);
    request.code = (uint8_t)(pair % 256);
    echoes->pairs[echoes->sent++ % KEPT] = pair;
    return talk_encode(&request, &packet) == STATUS_DONE && line_send(&bench->line, &packet);
}

/* Whether a packet answers one of the echoes. The NULL message shows no pair, and so is no echo. */
static bool is_echo(const struct bench *bench, const struct echoes *echoes, const struct packet *packet)
{
    struct reply reply;
    unsigned pair;

    if (!reply_read(&reply, packet->bytes, packet->len) || reply.kind != STATION_REPLY_GET)
        return false;
    if (reply_sender(&reply) != bench->options.dest)
        return false;
    pair = 256u * reply.numbers[2] + reply.numbers[3];
    for (size_t i = 0; i < echoes->sent && i < KEPT; i++)
        if (echoes->pairs[i] == pair)
            return true;
    return false;
}

/* Waits for a silence, or without one for an echo; gives what ended it, CAME_PACKET for an echo. */
static enum came await(struct bench *bench, const struct echoes *echoes, bool for_silence, long long until, taker *take,
                       void *about)
{
    struct line *line = &bench->line;

    for (;;) {
        struct packet packet;
        enum came came = for_silence ? line_rest(line, &packet, until) : line_hear(line, &packet, until);

        if (came != CAME_PACKET)
            return came;
        if (is_echo(bench, echoes, &packet)) {
            if (line->verbose)
                say_bytes("<-", packet.bytes, packet.len, "echo");
            return CAME_PACKET;
        }
        take(&packet, about);
        if (now_ms() >= until)
            return CAME_NOTHING;
    }
}

static long long later(long long one, long long other)
{
    return one > other ? one : other;
}

enum echo echo_run(struct bench *bench, long long limit_ms, taker *take, void *about)
{
    long long until = now_ms() + limit_ms;
    struct echoes echoes = {.sent = 0};
    enum came came;

    do {
        came = await(bench, &echoes, true, later(until, now_ms() + SILENCE_MS), take, about);
        if (came == CAME_NOTHING)
            return ECHO_RESTLESS;
        if (came == CAME_SILENCE) {
            if (!send_next(bench, &echoes))
                return ECHO_UNSENT;
            if (echoes.sent == 1)
                until = now_ms() + limit_ms;
            came = await(bench, &echoes, false, until - now_ms() > TRY_MS ? now_ms() + TRY_MS : until, take, about);
        }
        if (came == CAME_END)
            return ECHO_CLOSED;
        if (came == CAME_PACKET) {
            bench->line.is_rested = true;
            return ECHO_ANSWERED;
        }
    } while (now_ms() < until && bench->line.port.inside == NULL); /* the board inside answers at once or never */
    return ECHO_SILENT;
}

void echo_add_failure(struct text *text, enum echo echo, long long limit_ms)
{
    if (echo == ECHO_RESTLESS)
        text_add(text, "the line never rests");
    else if (echo == ECHO_SILENT)
        text_add(text, "it did not answer within %g s", (double)limit_ms / 1000);
    else
        text_add(text, "the line was closed");
}
