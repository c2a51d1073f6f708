/* How requests and their failures are told. */
#include "talk.h"

#include "show.h"
#include "words.h"

#include <stdio.h>
#include <string.h>

enum { READ_TRIES = 3 };

bool talk_is_simulated(const struct bench *bench)
{
    return strcmp(bench->options.port, PORT_SIMULATED) == 0;
}

const char *talk_port_words(const struct bench *bench)
{
    return talk_is_simulated(bench) ? "inside bench, not a real set" : bench->options.port;
}

long long talk_limit(const struct bench *bench, long long usual_ms)
{
    return bench->options.limit_ms != 0 ? bench->options.limit_ms : usual_ms;
}

enum status talk_open(struct bench *bench)
{
    const struct options *options = &bench->options;
    const char *simulated = talk_is_simulated(bench) ? "simulated " : "";

    if (options->dest == STATION_ALL)
        text_add(&bench->who, "all %smonitors", simulated);
    else
        text_add(&bench->who, "%smonitor %u", simulated, options->dest);
    bench->line.verbose = options->verbose;
    return port_open(&bench->line.port, options->port, options->store, talk_limit(bench, REPLY_LIMIT_MS));
}

void talk_close(struct bench *bench)
{
    port_close(&bench->line.port);
}

bool talk_reopen(struct bench *bench, long long until)
{
    bench->line.is_rested = false;
    return port_reopen(&bench->line.port, until);
}

enum status talk_encode(const struct request *request, struct packet *packet)
{
    uint8_t refusal = request_encode(request, packet);

    if (refusal != 0)
        return say_usage("change what is asked for", "the request can't be written, refusal %u: %s", refusal,
                         refusal_meaning(refusal));
    return STATUS_DONE;
}

enum status talk_ask(struct bench *bench, const struct request *request, long long limit_ms, struct exchange *exchange)
{
    struct packet packet;
    enum status status = talk_encode(request, &packet);

    if (status == STATUS_DONE)
        line_exchange(&bench->line, request, &packet, limit_ms, exchange);
    return status;
}

/* How long a read waits before it is sent again. */
static long long read_try(const struct bench *bench)
{
    long long limit_ms = talk_limit(bench, REPLY_LIMIT_MS);

    return limit_ms < REPLY_LIMIT_MS ? limit_ms : REPLY_LIMIT_MS;
}

long long talk_read_limit(const struct bench *bench)
{
    long long tries_ms = READ_TRIES * read_try(bench);

    return bench->options.limit_ms > tries_ms ? bench->options.limit_ms : tries_ms;
}

void talk_read(struct bench *bench, const struct request *request, struct exchange *exchange)
{
    struct packet packet;

    if (talk_encode(request, &packet) != STATUS_DONE) {
        exchange->ending = ENDED_UNSENT;
        return;
    }
    line_read(&bench->line, request, &packet, read_try(bench), talk_read_limit(bench), exchange);
    talk_show_damage(bench, exchange);
}

/* ---- when there is no answer */

void talk_add_failure(struct text *text, const struct bench *bench, const struct exchange *exchange, long long limit_ms)
{
    const char *who = bench->who.chars;

    switch (exchange->ending) {
    case ENDED_DAMAGED:
        text_add(text, "the reply of %s is damaged, refusal %u: %s", who, exchange->reply.kind,
                 refusal_meaning(exchange->reply.kind));
        break;
    case ENDED_CLOSED:
        text_add(text, "the line was closed before %s replied", who);
        break;
    case ENDED_UNSENT:
        text_add(text, "the request to %s could not be sent whole", who);
        break;
    case ENDED_OTHER:
        text_add(text, "%s did not reply within %g s; what came answers another request", who, (double)limit_ms / 1000);
        break;
    default:
        text_add(text, "%s did not reply within %g s", who, (double)limit_ms / 1000);
        break;
    }
}

void talk_show_damage(const struct bench *bench, const struct exchange *exchange)
{
    if (exchange->ending == ENDED_DAMAGED && bench->options.json)
        show_json(&exchange->reply, exchange->packet.bytes, exchange->packet.len, 0);
}

/* What to do when there is no answer. */
static const char *advice_for(const struct bench *bench, enum ending ending)
{
    if (talk_is_simulated(bench))
        return "leave -i out, for the simulated board is monitor 1; or name a board's port with -p";
    if (ending == ENDED_DAMAGED)
        return "try again; where it comes back, check the cable and its plugs";
    if (ending == ENDED_CLOSED || ending == ENDED_UNSENT)
        return "check that the board is on and the adapter or the network is connected, then try again";
    return "check power, cable, port (-p) and monitor ID (-i), then try again; a board that finishes a cut erase is silent until "
           "it has";
}

static enum status fail(const struct bench *bench, const struct request *request, const struct exchange *exchange)
{
    const char *left = "everything; the request only reads";
    struct text what = {.len = 0};

    if (request_changes(request))
        left = exchange->ending == ENDED_UNSENT ? "everything; a board drops a packet that is not whole"
                                                : "not known; the board may have acted, and its reply be lost. Read it back";
    talk_add_failure(&what, bench, exchange, talk_limit(bench, REPLY_LIMIT_MS));
    talk_show_damage(bench, exchange);
    return say_error(STATUS_NO_REPLY, left, advice_for(bench, exchange->ending), "%s", what.chars);
}

/* ---- when the board refuses */

/* Adds what was refused, and what to do. */
static void add_refusal(struct text *what, struct text *todo, const struct reply *reply)
{
    const uint16_t *n = reply->numbers;
    const struct setting *setting = setting_at(n[2], n[3]);

    switch (reply->kind) {
    case STATION_REPLY_NULL:
        text_add(what, "does not know this request (NULL message)");
        text_add(todo, "check that this model has the command");
        return;
    case STATION_REPLY_GET:
        text_add(what, "has no setting at page %02Xh, code %02Xh (result 01)", n[2], n[3]);
        break;
    case STATION_REPLY_SET:
        text_add(what, "refused to set ");
        add_setting(what, n[2], n[3]);
        text_add(what, " to %u (result 01)", n[6]);
        break;
    default:
        text_add(what, "refused this (status 01)");
        text_add(todo, "read what it holds, and check the value");
        return;
    }
    if (setting != NULL)
        text_add(todo, "give a value that it takes: %s; in standby it takes no Set but the erase: bench power on", setting->takes);
    else
        text_add(todo, "name a setting, as backlight; page and code are decimal, or hexadecimal behind 0x");
}

static enum status refuse(const struct bench *bench, const struct reply *reply)
{
    struct text what = {.len = 0}, todo = {.len = 0};

    add_refusal(&what, &todo, reply);
    return say_error(STATUS_REFUSED, "everything; a refused request changes nothing", todo.chars, "%s %s", bench->who.chars,
                     what.chars);
}

/* ---- one request */

/* Sends a request to all monitors. */
static enum status tell_all(struct bench *bench, const struct request *request)
{
    struct packet packet;
    enum status status;

    if (!request_changes(request))
        return say_usage("name one monitor, -i 1 to -i 8", "no monitor replies to a request to all, so there is nothing to read");
    status = talk_encode(request, &packet);
    if (status != STATUS_DONE)
        return status;
    if (!line_tell(&bench->line, &packet))
        return say_error(STATUS_NO_REPLY, "everything; a board drops a packet that is not whole",
                         "check that the adapter or the network is connected, then try again",
                         "the request could not be sent whole");
    say_note("sent to %s; none of them replies, so bench can't say whether they took it", bench->who.chars);
    return STATUS_DONE;
}

enum status talk_run(struct bench *bench, const struct request *request)
{
    struct text sentence = {.len = 0};
    struct exchange exchange;
    enum status status;

    if (request->dest == STATION_ALL)
        return tell_all(bench, request);
    status = talk_ask(bench, request, talk_limit(bench, REPLY_LIMIT_MS), &exchange);
    if (status != STATUS_DONE)
        return status;
    if (exchange.ending != ENDED_ANSWERED)
        return fail(bench, request, &exchange);
    if (bench->options.json)
        show_json(&exchange.reply, exchange.packet.bytes, exchange.packet.len, talk_is_simulated(bench) ? REMARK_SIMULATED : 0);
    if (reply_is_refusal(&exchange.reply))
        return refuse(bench, &exchange.reply);
    add_sentence(&sentence, &exchange.reply);
    if (!bench->options.json)
        printf("%s: %s\n", bench->who.chars, sentence.chars);
    return STATUS_DONE;
}
