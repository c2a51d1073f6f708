/* The erase of a board from the bench. */
#define _POSIX_C_SOURCE 200809L

#include "erase.h"

#include "deadline.h"
#include "echo.h"
#include "progress.h"
#include "read_back.h"
#include "show.h"
#include "verdict.h"

#include <stdio.h>
#include <string.h>
#include <unistd.h>

enum { ATTEMPTS = 3, ERASE_LIMIT_MS = 10000 };

/* An erase so far. */
struct erase {
    struct bench *bench;
    long long limit_ms; /* an erase takes at most so long */
    struct request request;
    struct packet packet; /* the request's */
    struct progress progress;
    struct exchange answer;      /* the latest reply to the request between its echoes */
    unsigned accepted;           /* how many of these acknowledge it */
    bool is_refused, is_damaged; /* one of these refuses it; a packet between the echoes is no good reply */
    struct verdict verdict;
};

/* How a part of the erase ended. */
enum part {
    PART_DONE,
    PART_LOST,  /* with the end of the line */
    PART_AGAIN, /* with a board that answers, and no reply that counts */
    PART_OVER   /* with a verdict */
};

/* ---- verdicts against it */

static const char erase_again[] =
    "keep the set apart and its power on, check cable, port (-p) and monitor ID (-i), and run the erase again, until bench says "
    "erased; a clean menu proves nothing. Where the board needs longer, give it more time with -t, as -t 60";

/* Not known; or, where no request was sent, not erased. */
static enum part fail(struct erase *e, const char *todo, const struct text *why)
{
    struct verdict *verdict = &e->verdict;
    bool was_sent = verdict->requests > 0;

    verdict->kind = was_sent ? VERDICT_NOT_KNOWN : VERDICT_NOT_ERASED;
    verdict->why = *why;
    verdict->left = was_sent ? "not known; the set may be erased in part" : "everything; no erase was sent";
    verdict->todo = todo;
    return PART_OVER;
}

static enum part fail_at_echo(struct erase *e, enum echo echo, long long limit_ms)
{
    struct text why = {.len = 0};

    if (echo == ECHO_CLOSED || echo == ECHO_UNSENT)
        return PART_LOST;
    echo_add_failure(&why, echo, limit_ms);
    return fail(e, erase_again, &why);
}

/* ---- which set it is */

/* Takes what comes before the first echo: it is older than the request. */
static void take_older(const struct packet *packet, void *about)
{
    const struct erase *e = about;

    if (e->bench->line.verbose)
        say_bytes("<-", packet->bytes, packet->len, "older than this erase, skipped");
}

/* Reads which set is at the line, and compares it with the one to erase, which is the first that was read. */
static enum part compare_set(struct erase *e)
{
    struct text why = {.len = 0};
    struct identity set;
    enum ending ending;

    if (!identity_read(e->bench, &set, &why, &ending))
        return ending == ENDED_CLOSED || ending == ENDED_UNSENT ? PART_LOST : fail(e, erase_again, &why);
    if (!e->verdict.is_met)
        e->verdict.set = set;
    e->verdict.is_met = true;
    if (identity_is(&set, &e->verdict.set))
        return PART_DONE;
    text_add(&why, "another set is at the line now, with ");
    add_identity(&why, &set);
    return fail(e,
                e->verdict.requests == 0
                    ? "connect the set that is to be erased and run the erase again; the one at the line now was sent no erase"
                    : "keep both sets apart, for nobody can tell which of them got the erase; connect the one that is to be erased "
                      "and run the erase again",
                &why);
}

/* Shows what is waited for. */
static void begin_wait(struct erase *e, const char *doing, long long limit_ms)
{
    e->progress = (struct progress){.limit_ms = limit_ms};
    text_add(&e->progress.doing, "%s %s", doing, e->bench->who.chars);
    if (e->verdict.requests > 0)
        text_add(&e->progress.doing, ", request %u of %d", e->verdict.requests, ATTEMPTS);
    progress_begin(&e->progress, &e->bench->line);
}

/* The first echo, and which set is behind it. */
static enum part meet(struct erase *e)
{
    enum echo echo;

    begin_wait(e, "waiting for", e->limit_ms);
    echo = echo_run(e->bench, e->limit_ms, take_older, e);
    progress_end(&e->bench->line);
    return echo == ECHO_ANSWERED ? compare_set(e) : fail_at_echo(e, echo, e->limit_ms);
}

/* ---- the request and its reply */

/* Whether a reply to the request is a finished erase's: result 00, operation type 01, max 1. */
static bool is_acceptance(const struct reply *reply)
{
    return reply->kind == STATION_REPLY_SET && reply->numbers[1] == 0 && reply->numbers[4] == 1 && reply->numbers[5] == 1;
}

/* Takes what comes between the echoes. */
static void take_reply(const struct packet *packet, void *about)
{
    struct erase *e = about;
    struct exchange came = {.packet = *packet};
    bool is_good = reply_read(&came.reply, packet->bytes, packet->len);
    bool is_answer = is_good && request_is_answered(&e->request, &came.reply);

    if (e->bench->line.verbose)
        say_bytes("<-", packet->bytes, packet->len, is_good && !is_answer ? "answers another request, skipped" : NULL);
    came.ending = is_answer ? ENDED_ANSWERED : is_good ? ENDED_OTHER : ENDED_DAMAGED;
    talk_show_damage(e->bench, &came);
    e->is_damaged = e->is_damaged || !is_good;
    if (!is_answer)
        return;
    e->answer = came;
    e->accepted += is_acceptance(&came.reply);
    e->is_refused = e->is_refused || reply_is_refusal(&came.reply);
}

/* Waits for the reply, no longer than for a damaged one; says whether the line is still there. */
static bool await_reply(struct erase *e, long long until)
{
    struct packet packet;
    enum came came = CAME_PACKET;

    while (came == CAME_PACKET && e->accepted == 0 && !e->is_refused && !e->is_damaged && now_ms() < until) {
        came = line_hear(&e->bench->line, &packet, until);
        if (came == CAME_PACKET)
            take_reply(&packet, e);
    }
    return came != CAME_END;
}

/* The board refused the request. */
static enum part fail_refused(struct erase *e)
{
    struct text why = {.len = 0};

    text_add(&why, e->accepted > 0                              ? "it acknowledged the erase and refused it"
                   : e->answer.reply.kind == STATION_REPLY_NULL ? "it does not know the erase (NULL message), as our boards do"
                                                                : "it refused the erase (result 01)");
    fail(e, erase_again, &why);
    if (e->verdict.requests == 1 && e->accepted == 0) {
        e->verdict.kind = VERDICT_NOT_ERASED;
        e->verdict.left = "everything; a refused erase changes nothing";
    }
    return PART_OVER;
}

/* Whether the replies between the echoes say that the board has erased: one request gets one. */
static enum part count_replies(const struct erase *e)
{
    if (e->accepted == 1)
        return PART_DONE;
    say_note("%s answers, but %s", e->bench->who.chars,
             e->accepted == 0 ? "no reply to the erase came" : "more than one reply to the erase came, and a board sends one");
    return PART_AGAIN;
}

/* Sends the request behind the first echo; its reply counts until the second one, however late it comes. */
static enum part send_request(struct erase *e)
{
    struct line *line = &e->bench->line;
    long long until = now_ms() + 2 * e->limit_ms;
    enum echo echo = ECHO_CLOSED;

    e->accepted = 0;
    e->is_refused = e->is_damaged = false;
    e->verdict.requests++;
    begin_wait(e, "erasing", 2 * e->limit_ms);
    if (line_send(line, &e->packet) && await_reply(e, until - e->limit_ms) && !e->is_refused)
        echo = echo_run(e->bench, until - now_ms(), take_reply, e);
    if (echo == ECHO_SILENT && e->accepted > 0)
        echo = echo_run(e->bench, e->limit_ms, take_reply, e); /* the reply came in time, and the echo needs its own */
    progress_end(line);
    if (e->is_refused)
        return fail_refused(e);
    return echo == ECHO_ANSWERED ? count_replies(e) : fail_at_echo(e, echo, 2 * e->limit_ms);
}

/* ---- what speaks against the reply */

static enum part contradict(struct erase *e, const struct read_back *found)
{
    e->verdict.kind = VERDICT_CONTRADICTED;
    e->verdict.why = found->differs;
    if (found->is_other_set) {
        e->verdict.left = "not known, of two sets: the one at the line now may have been erased in place of the other";
        e->verdict.todo = "keep both sets apart, connect the one that is to be erased, and run the erase again";
    } else {
        e->verdict.left = "not known; what differs is not an unused board's";
        e->verdict.todo =
            "keep the set apart and run the erase again; where the same comes back, its board is broken or none of ours";
    }
    return PART_OVER;
}

/* Reads back behind the second echo, and sets the verdict. */
static enum part judge(struct erase *e)
{
    struct read_back found = {.is_closed = false};
    struct text why = {.len = 0};
    unsigned remarks = talk_is_simulated(e->bench) ? REMARK_SIMULATED : 0u;

    if (e->bench->options.json)
        show_json(&e->answer.reply, e->answer.packet.bytes, e->answer.packet.len, remarks);
    read_back_all(e->bench, &e->verdict.set, &found);
    if (found.differs.len > 0)
        return contradict(e, &found);
    if (found.is_closed)
        return PART_LOST;
    if (found.unproved.len > 0) {
        text_add(&why, "it replied to the erase, but not all can be read back: %s", found.unproved.chars);
        return fail(e, erase_again, &why);
    }
    e->verdict.kind = VERDICT_ERASED;
    return PART_OVER;
}

/* ---- attempts */

static enum part attempt(struct erase *e)
{
    enum part part = meet(e);

    if (part == PART_DONE)
        part = send_request(e);
    return part == PART_DONE ? judge(e) : part;
}

static void fail_closed(struct erase *e)
{
    struct text why = {.len = 0};

    text_add(&why, "the line was closed");
    fail(e, erase_again, &why);
}

/* Makes attempts until one ends with a verdict, or as many requests as may be have been sent. */
static void erase_set(struct erase *e)
{
    struct text why = {.len = 0};
    long long lost_until = 0; /* until when a line that ended is looked for; 0 while there is one */

    while (e->verdict.requests < ATTEMPTS) {
        unsigned sent = e->verdict.requests;
        enum part part = attempt(e);

        if (part == PART_OVER)
            return;
        if (part != PART_LOST || e->verdict.requests > sent)
            lost_until = 0;
        if (part == PART_LOST && lost_until == 0) {
            say_note("the line to %s was closed", e->bench->who.chars);
            lost_until = now_ms() + e->limit_ms;
        }
        if (part == PART_LOST && (e->verdict.requests == ATTEMPTS || !talk_reopen(e->bench, lost_until))) {
            fail_closed(e);
            return;
        }
    }
    text_add(&why, "none of %u requests got the one reply that says so", e->verdict.requests);
    fail(e, erase_again, &why);
}

/* ---- the question */

/* Shows the set that would be erased. */
static void show_set(struct erase *e)
{
    const struct request tag = {.kind = STATION_REPLY_TAG, .dest = e->bench->options.dest};
    struct text serial = {.len = 0}, model = {.len = 0}, shown = {.len = 0};
    struct exchange exchange;

    add_sentence(&serial, &e->verdict.set.serial);
    add_sentence(&model, &e->verdict.set.model);
    fprintf(stderr, "  Its %s.\n  Its %s.\n", serial.chars, model.chars);
    talk_read(e->bench, &tag, &exchange);
    if (exchange.ending != ENDED_ANSWERED || reply_is_refusal(&exchange.reply))
        return;
    add_sentence(&shown, &exchange.reply);
    fprintf(stderr, "  Its %s.\n", shown.chars);
}

/* Asks whether to erase. */
static bool is_wanted(struct erase *e)
{
    const struct bench *bench = e->bench;
    char answer[16] = "";

    fprintf(stderr, "This erases %s (%s).\n", bench->who.chars, talk_port_words(bench));
    if (bench->options.dest == STATION_ALL)
        fprintf(stderr, "  None of them replies, so bench will not be able to say that any is erased.\n");
    else
        show_set(e);
    fprintf(stderr,
            "  Lost for good: the eight settings, power mode, date, tag, former tag and the seven programs.\nType yes to erase: ");
    if (fflush(stderr) != 0 || ferror(stderr) != 0)
        return false; /* nobody has seen the question */
    if (fgets(answer, sizeof answer, stdin) == NULL || isatty(STDIN_FILENO) != 1)
        fputc('\n', stderr);
    return strcmp(answer, "yes\n") == 0 || strcmp(answer, "yes") == 0;
}

/* ---- the command */

/* Sends the erase to all monitors. Nobody replies, so nothing can be said. */
static void erase_all(struct erase *e)
{
    struct text why = {.len = 0};

    if (!line_tell(&e->bench->line, &e->packet)) {
        text_add(&why, "the erase could not be sent whole, and a board drops a packet that is not");
        fail(e, "check that the adapter or the network is connected, then try again", &why);
        return;
    }
    e->verdict.requests = 1;
    text_add(&why, "the erase was sent to %s, and none of them replies: bench can't say that any is erased", e->bench->who.chars);
    fail(e, "leave the power on, then erase each monitor by its ID, -i 1 to -i 8: bench says of each whether it is erased", &why);
    e->verdict.left = "not known; the boards that took it erase themselves now";
}

/* Erases, once it is wanted, and sets the verdict. Gives STATUS_USAGE where it is not wanted. */
static enum status erase_wanted(struct erase *e)
{
    bool to_all = e->request.dest == STATION_ALL;
    enum part met = e->bench->options.yes || to_all ? PART_DONE : meet(e);

    if (met == PART_LOST)
        fail_closed(e);
    if (met != PART_DONE)
        return STATUS_DONE;
    if (!e->bench->options.yes && !is_wanted(e))
        return say_error(STATUS_USAGE, "everything; no erase was sent", "run the command again and type yes; a script gives --yes",
                         "not erased: the answer was not yes");
    verdict_on_interruption(e->bench);
    if (to_all)
        erase_all(e);
    else
        erase_set(e);
    return STATUS_DONE;
}

enum status erase_run(struct bench *bench)
{
    struct erase e = {
        .bench = bench,
        .limit_ms = talk_limit(bench, ERASE_LIMIT_MS),
        .request = {
            .kind = STATION_REPLY_SET, .dest = bench->options.dest, .page = ERASE_PAGE, .code = ERASE_CODE, .value = ERASE_VALUE}};
    enum status status = talk_encode(&e.request, &e.packet);

    if (status == STATUS_DONE)
        status = erase_wanted(&e);
    return status == STATUS_DONE ? verdict_tell(bench, &e.verdict) : status;
}
