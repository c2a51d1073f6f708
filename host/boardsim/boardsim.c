/*
 * A simulated board on a pseudo-terminal or a TCP port, over a store file.
 *
 * What each call stores is in the file before anything else happens, and outlives this program, however it ends: killing it is a
 * power cut, and starting it again is the start after that. One thread waits in poll() for the line, for the silence after a byte
 * and for the next erase step.
 *
 * While a reply can't go out because nobody takes it, the line is not read. So at most one reply waits, and none is lost.
 */
#define _GNU_SOURCE /* pipe2, POLLRDHUP */

#include "common/standard_files.h"
#include "end.h"
#include "line.h"
#include "options.h"
#include "simulation/sim.h"
#include "simulation/store_file.h"

#include <errno.h>
#include <fcntl.h>
#include <poll.h>
#include <signal.h>
#include <stdio.h>
#include <stdlib.h>
#include <string.h>
#include <sys/socket.h>
#include <time.h>
#include <unistd.h>

/* ---- the store file */

/* Ends the program where the board refuses its store. */
__attribute__((noreturn)) static void end_refused(const char *path, uint8_t refusal)
{
    const char *advice = refusal == BOARD_REFUSED_NOT_A_STORE
                             ? "Name another file; where there is none, an unused store is made"
                             : "Put a good copy in its place, or move the file away, and an unused store is made";

    end_with(STATUS_STORE_REFUSED, "%s: refused with %d: %s. %s", path, refusal, sim_refusal_text(refusal), advice);
}

/* Ends the program where the store file is not what it has to be. */
static void check_store(const char *path, enum store_file_status status)
{
    if (status == STORE_FILE_NOT_A_STORE)
        end_refused(path, BOARD_REFUSED_NOT_A_STORE);
    if (status == STORE_FILE_IN_USE)
        end_with(STATUS_SYSTEM, "the store %s is in use by another program: end that one, or name another file", path);
    if (status == STORE_FILE_CHANGED)
        end_with(STATUS_STORE_REFUSED,
                 "another program has changed the store %s, which stays as it is now: end that one, and start again", path);
    if (status != STORE_FILE_OPEN)
        end_system("can't use the store", path);
}

/* ---- ending on a signal */

static int stop_pipe[2];

static void stop(int signal)
{
    int before = errno;
    ssize_t written = write(stop_pipe[1], "", 1);

    (void)signal;
    (void)written; /* where the pipe is full it is readable, and that is all that counts */
    errno = before;
}

static void catch_signals(void)
{
    struct sigaction stops = {.sa_handler = stop}, ignored = {.sa_handler = SIG_IGN};

    if (pipe2(stop_pipe, O_CLOEXEC | O_NONBLOCK) != 0)
        end_system("can't make", "a pipe");
    if (sigaction(SIGTERM, &stops, NULL) != 0 || sigaction(SIGINT, &stops, NULL) != 0 || sigaction(SIGPIPE, &ignored, NULL) != 0)
        end_system("can't catch", "signals");
}

/* ---- the board on its line */

enum { GAP_MS = 100 };

struct simulator {
    struct options options;
    struct store_file store;
    struct sim sim;
    int listener;           /* -1 with a pseudo-terminal */
    int line;               /* the pseudo-terminal or the client; -1 where there is no client */
    bool ended;             /* the client sends no more; it stays for what it is owed */
    bool holds;             /* the board holds the beginning of a packet */
    bool erasing;           /* the board waits for erase steps */
    int64_t last_byte;      /* when the line gave one, in nanoseconds */
    int64_t last_moved;     /* when the client came, a byte went either way, or the board was done with an erase */
    int64_t last_step;      /* when an erase step ran or its erase began */
    size_t in_at, in_end;   /* what was read and not yet given to the board */
    size_t out_at, out_end; /* what is to be sent */
    uint8_t in[512];
    uint8_t out[BOARD_REPLY_ROOM];
};

static int64_t now(void)
{
    struct timespec time;

    if (clock_gettime(CLOCK_MONOTONIC, &time) != 0)
        end_system("can't read", "the clock");
    return (int64_t)time.tv_sec * 1000000000 + time.tv_nsec;
}

static void say_reply(const uint8_t *bytes, size_t n)
{
    char hex[2 * BOARD_REPLY_ROOM + 1] = "";

    for (size_t i = 0; i < n; i++)
        snprintf(hex + 2 * i, 3, "%02X", bytes[i]);
    fprintf(stderr, "reply %s\n", hex);
}

static void say(const struct sim *sim, uint8_t answer)
{
    static const char *const names[] = {[BOARD_SILENT] = "silent", [BOARD_BEGUN] = "begun", [BOARD_ENDED] = "ended"};

    if (answer == BOARD_REPLY)
        say_reply(sim->reply, sim->reply_len);
    else if (answer == BOARD_REFUSED)
        fprintf(stderr, "refused %d: %s\n", sim->refusal, sim_refusal_text(sim->refusal));
    else if (answer != BOARD_WAITING && answer != BOARD_MORE)
        fprintf(stderr, "%s\n", names[answer]);
}

/* What follows from an answer, whichever call gave it. */
static void follow(struct simulator *s, uint8_t answer)
{
    check_store(s->options.store, store_file_keep(&s->store));
    if (s->options.verbose)
        say(&s->sim, answer);
    s->holds = answer == BOARD_WAITING;
    s->last_moved = s->erasing ? now() : s->last_moved;
    s->erasing = sim_is_erasing(&s->sim);
    s->last_step = answer == BOARD_BEGUN || answer == BOARD_MORE ? now() : s->last_step;
    if (answer == BOARD_REPLY && s->line >= 0) {
        memcpy(s->out, s->sim.reply, s->sim.reply_len);
        s->out_at = 0;
        s->out_end = s->sim.reply_len;
    }
}

static bool is_sending(const struct simulator *s)
{
    return s->out_at < s->out_end;
}

/* Gives the board what was read, as far as its replies go out. */
static void feed(struct simulator *s)
{
    while (s->in_at < s->in_end && !is_sending(s))
        follow(s, sim_byte(&s->sim, s->in[s->in_at++]));
}

static void tell_gap(struct simulator *s)
{
    follow(s, sim_gap(&s->sim));
    s->holds = false;
}

/* Ends a client's connection. The board gets what the client had sent, then a gap. */
static void drop_client(struct simulator *s)
{
    if (close(s->line) != 0 && errno != ECONNRESET && errno != EINTR)
        end_system("can't close", "a client's connection");
    s->line = -1;
    s->ended = false;
    s->out_at = s->out_end = 0;
    feed(s);
    if (s->holds)
        tell_gap(s);
}

/* Whether a read or write that failed is to be tried again; a client's failure ends the client. */
static bool try_again(struct simulator *s, const char *doing)
{
    if (errno == EAGAIN || errno == EWOULDBLOCK || errno == EINTR)
        return true;
    if (s->listener < 0)
        end_system(doing, "the pseudo-terminal");
    return false;
}

static void read_line(struct simulator *s)
{
    ssize_t n = read(s->line, s->in, sizeof s->in);

    if (n < 0 && try_again(s, "can't read from"))
        return;
    if (n < 0) {
        drop_client(s);
        return;
    }
    s->ended = n == 0;
    s->in_at = 0;
    s->in_end = (size_t)n;
    s->last_byte = s->last_moved = now();
    feed(s);
}

static void write_line(struct simulator *s)
{
    ssize_t n = write(s->line, s->out + s->out_at, s->out_end - s->out_at);

    if (n < 0 && !try_again(s, "can't write to"))
        drop_client(s);
    if (n > 0) {
        s->out_at += (size_t)n;
        s->last_moved = now();
    }
    feed(s);
}

/* Takes a client; or turns it away while there is one. */
static void take_client(struct simulator *s)
{
    int client = accept(s->listener, NULL, NULL);

    if (client < 0) {
        if (errno != EAGAIN && errno != EWOULDBLOCK && errno != EINTR && errno != ECONNABORTED)
            end_system("can't take", "a client");
        return;
    }
    if (s->line < 0) {
        make_nonblocking(client, "a client's connection");
        s->line = client;
        s->last_moved = now();
    } else if (close(client) != 0 && errno != ECONNRESET && errno != EINTR) {
        end_system("can't turn away", "a client");
    }
}

/* When the next gap or erase step is due, in nanoseconds; INT64_MAX for never. */
static int64_t gap_due(const struct simulator *s)
{
    return s->holds && s->in_at == s->in_end ? s->last_byte + (int64_t)GAP_MS * 1000000 : INT64_MAX;
}

static int64_t step_due(const struct simulator *s)
{
    return s->erasing ? s->last_step + (int64_t)s->options.step_ms * 1000000 : INT64_MAX;
}

/* When a client that says nothing, or takes nothing, has to go for the next one. The board's erase is not its fault. */
static int64_t leave_due(const struct simulator *s)
{
    return s->listener >= 0 && s->line >= 0 && !s->erasing ? s->last_moved + (int64_t)s->options.idle_ms * 1000000 : INT64_MAX;
}

static int64_t earlier(int64_t one, int64_t other)
{
    return one < other ? one : other;
}

/* How long poll() may wait, in milliseconds, rounded up; -1 for ever. */
static int poll_timeout(const struct simulator *s)
{
    int64_t first = earlier(earlier(gap_due(s), step_due(s)), leave_due(s)), time = now();

    if (first == INT64_MAX)
        return -1;
    return first <= time ? 0 : (int)((first - time + 999999) / 1000000);
}

/* Does what the line is ready for; or tells the board of the silence. */
static void serve_line(struct simulator *s, short ready)
{
    if (ready != 0 && is_sending(s))
        write_line(s);
    else if (ready != 0)
        read_line(s);
    else if (gap_due(s) <= now())
        tell_gap(s);
}

/* Waits for something and does what it asks for. The result says whether to go on. */
static bool serve(struct simulator *s)
{
    bool sending = is_sending(s);
    struct pollfd waits[] = {
        {.fd = stop_pipe[0], .events = POLLIN},
        {.fd = s->ended ? -1 : s->listener, .events = POLLIN},
        {.fd = s->ended && !sending ? -1 : s->line, .events = sending ? POLLOUT : POLLIN | POLLRDHUP},
    };
    short line_ready;

    if (poll(waits, 3, poll_timeout(s)) < 0) {
        if (errno != EINTR)
            end_system("can't wait for", "the line");
        return true;
    }
    if (waits[0].revents != 0)
        return false;
    line_ready = waits[2].revents;
    serve_line(s, line_ready);
    if (waits[1].revents != 0 && (line_ready & (POLLRDHUP | POLLHUP)) == 0)
        take_client(s); /* it waits while one is about to go, which poll() looks at later and so can't miss */
    if (step_due(s) <= now())
        follow(s, sim_step(&s->sim));
    if ((s->ended && !is_sending(s) && !s->erasing) || leave_due(s) <= now())
        drop_client(s);
    return true;
}

/* ---- the program */

static void start(struct simulator *s)
{
    const struct options *o = &s->options;
    uint8_t refusal;

    check_store(o->store, store_file_open(&s->store, o->store));
    refusal = sim_start(&s->sim, s->store.bytes, o->id, (const uint8_t *)o->serial, strlen(o->serial), (const uint8_t *)o->model,
                        strlen(o->model));
    if (refusal != 0)
        end_refused(o->store, refusal);
    check_store(o->store, store_file_keep(&s->store));
    if (s->sim.is_converted)
        fprintf(stderr, "boardsim: the store %s %s\n", o->store, sim_conversion_text);
    s->erasing = sim_is_erasing(&s->sim);
    s->last_step = now();
}

int main(int argc, char **argv)
{
    static struct simulator s = {.listener = -1, .line = -1};

    standard_files_hold();
    s.options = options_in(argc, argv);
    catch_signals();
    start(&s);
    if (s.options.pty)
        s.line = open_pty();
    else
        s.listener = open_listener(s.options.address != NULL ? s.options.address : "127.0.0.1", s.options.port);
    while (serve(&s))
        continue;
    check_store(s.options.store, store_file_close(&s.store));
    return STATUS_DONE;
}
