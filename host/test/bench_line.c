/*
 * The line between bench and simulated boards, for tests: it can be cut, moved to another board, and can lie.
 *
 *   bench_line (--pty | --tcp) [OPTION..] [PORT..]
 *
 * It prints its own device or TCP port, and passes packets between bench there and a boardsim at the first PORT of this computer. A
 * board that is not there is off: it hears nothing, and is looked for again and again. SIGUSR1 moves the cable to the next PORT;
 * behind the last one there is no board.
 *
 *   --erase LIST     what becomes of erase requests, one after another between commas, the last for all that follow:
 *                    pass (the board gets it), lose (nobody does), hush (the board gets it, its reply is lost), or the digits of
 *                    an answer that comes at once, while nobody gets the request
 *   --reads HOW      what becomes of all other requests but echoes behind the first erase request: pass, silent or null; with
 *                    HOW:TEXT of those alone whose text begins so
 *   --move WHEN      the cable moves just before the first model read (model) or erase request (request), with an erase
 *                    request that is lost (lose), or just behind the reply to one (reply)
 *   --drop N         with --tcp: the connection is closed behind the Nth packet to bench
 *   --relay          with --tcp: a connection is closed while the board is off
 *   --echo-from C    answers to echoes come from this address
 *   --late MS        what a board sends comes so much later
 *   --pace MS        each byte to bench takes so long
 *   --twice          each reply comes twice
 *   --noise MS       a byte 55h comes so often
 *   --old MS:HEX     these bytes come so long after the start, or with --tcp after each connection; may stand several times
 */
#define _GNU_SOURCE /* posix_openpt, cfmakeraw, accept4 */

#include <arpa/inet.h>
#include <errno.h>
#include <fcntl.h>
#include <netinet/in.h>
#include <poll.h>
#include <signal.h>
#include <stdbool.h>
#include <stdint.h>
#include <stdio.h>
#include <stdlib.h>
#include <string.h>
#include <sys/socket.h>
#include <termios.h>
#include <time.h>
#include <unistd.h>

enum { SOH = 0x01, HEADER = 7, SHORTEST = 13, LONGEST = 73, CUT_MS = 60, RETRY_MS = 20, LIFE_S = 120 };

static const char null_reply[] = "0130304142303402424503010D";

/* ---- what the line was told to do */

static struct {
    bool pty, twice, relay;
    const char *erase, *reads, *move, *echo_from;
    long drop, late, pace, noise;
    const char *old[8];
    size_t olds;
    char **boards; /* ports, ended by a null pointer */
} told = {.erase = "pass", .reads = "pass", .move = ""};

/* ---- the line */

struct packet {
    size_t len;
    uint8_t bytes[LONGEST];
};

/* Bytes on their way to bench. */
struct waiting {
    long long due;
    struct packet packet;
};

static struct {
    int listener, bench, board;
    struct packet from_bench, from_board; /* what came of a packet so far */
    long long heard_bench;                /* when bench sent a byte */
    long long next_try, next_noise;
    struct waiting queue[256];
    size_t first, end;
    bool was_erased;             /* an erase request came */
    unsigned hushed;             /* erase replies that are to be lost */
    volatile sig_atomic_t moves; /* how often the cable is to be moved */
} line = {.listener = -1, .bench = -1, .board = -1};

__attribute__((noreturn)) static void fail(const char *doing)
{
    perror(doing);
    exit(1);
}

static long long now_ms(void)
{
    struct timespec time;

    clock_gettime(CLOCK_MONOTONIC, &time);
    return (long long)time.tv_sec * 1000 + time.tv_nsec / 1000000;
}

/* ---- to bench */

static void queue_part(const uint8_t *bytes, size_t len, long long due)
{
    struct waiting *waiting = &line.queue[line.end++ % (sizeof line.queue / sizeof line.queue[0])];

    waiting->due = due;
    waiting->packet.len = len;
    memcpy(waiting->packet.bytes, bytes, len);
}

static void queue_bytes(const uint8_t *bytes, size_t len, long long due)
{
    if (told.pace == 0)
        queue_part(bytes, len, due);
    for (size_t i = 0; told.pace > 0 && i < len; i++)
        queue_part(bytes + i, 1, due + told.pace * (long long)i);
}

static void queue_hex(const char *hex, long long due)
{
    struct packet packet = {.len = 0};
    unsigned byte;

    for (; packet.len < sizeof packet.bytes && sscanf(hex, "%2x", &byte) == 1; hex += 2)
        packet.bytes[packet.len++] = (uint8_t)byte;
    queue_bytes(packet.bytes, packet.len, due);
}

static void queue_old(void)
{
    for (size_t i = 0; i < told.olds; i++)
        queue_hex(strchr(told.old[i], ':') + 1, now_ms() + strtol(told.old[i], NULL, 10));
}

static void leave_bench(void)
{
    close(line.bench);
    line.bench = -1;
}

/* Sends what is due. Where nobody listens it is gone. */
static void send_due(void)
{
    size_t room = sizeof line.queue / sizeof line.queue[0];

    for (; line.first != line.end && line.queue[line.first % room].due <= now_ms(); line.first++) {
        const struct packet *packet = &line.queue[line.first % room].packet;

        if (line.bench >= 0 && write(line.bench, packet->bytes, packet->len) < 0 && errno != EAGAIN && errno != EPIPE)
            fail("write to bench");
        if (told.drop > 0 && --told.drop == 0)
            leave_bench();
    }
    if (told.noise > 0 && line.next_noise <= now_ms()) {
        line.next_noise = now_ms() + told.noise;
        if (line.bench >= 0 && write(line.bench, "\x55", 1) < 0 && errno != EAGAIN && errno != EPIPE)
            fail("write to bench");
    }
}

/* ---- packets */

/* How long the packet is whose first bytes these are; 0 where that is not known. */
static size_t size_of(const struct packet *packet)
{
    char digits[3] = "";
    unsigned length;

    if (packet->len < HEADER)
        return 0;
    memcpy(digits, packet->bytes + 5, 2);
    if (sscanf(digits, "%2x", &length) != 1 || length + 9 > LONGEST || length + 9 < SHORTEST)
        return SHORTEST;
    return length + 9;
}

/* Adds a byte; says whether the packet is whole. What does not begin with 01h is a packet of one byte. */
static bool add_byte(struct packet *packet, uint8_t b)
{
    packet->bytes[packet->len++] = b;
    return packet->bytes[0] != SOH || packet->len == size_of(packet) || packet->len == LONGEST;
}

static bool has_text(const struct packet *packet, char type, const char *text)
{
    return packet->len > 8 + strlen(text) && packet->bytes[4] == type && memcmp(packet->bytes + 8, text, strlen(text)) == 0;
}

/* Whether a request is a Get of a page that boards don't list. */
static bool is_echo(const struct packet *packet)
{
    return packet->len == 15 && packet->bytes[4] == 'C' && !has_text(packet, 'C', "00") && !has_text(packet, 'C', "02") &&
           !has_text(packet, 'C', "10") && !has_text(packet, 'C', "F0");
}

/* ---- boards */

static void leave_board(void)
{
    if (line.board >= 0)
        close(line.board);
    line.board = -1;
    line.from_board.len = 0;
}

static void move_cable(void)
{
    leave_board();
    line.next_try = 0;
    if (*told.boards != NULL)
        told.boards++;
}

/* Connects to the board of the cable, where it is on. */
static void try_board(void)
{
    struct sockaddr_in address = {.sin_family = AF_INET, .sin_addr.s_addr = htonl(INADDR_LOOPBACK)};

    if (line.board >= 0 || *told.boards == NULL || line.next_try > now_ms())
        return;
    line.next_try = now_ms() + RETRY_MS;
    address.sin_port = htons((uint16_t)atoi(*told.boards));
    line.board = socket(AF_INET, SOCK_STREAM | SOCK_CLOEXEC, 0);
    if (line.board < 0)
        fail("socket");
    if (connect(line.board, (struct sockaddr *)&address, sizeof address) != 0)
        leave_board();
}

static void send_to_board(const struct packet *packet)
{
    try_board();
    if (line.board >= 0 && write(line.board, packet->bytes, packet->len) < 0)
        leave_board();
}

/* ---- requests and replies */

/* Does with an erase request what its turn says. */
static void take_erase(const struct packet *packet)
{
    size_t turn = strcspn(told.erase, ",");
    char how[2 * LONGEST + 1] = "";

    snprintf(how, sizeof how, "%.*s", (int)turn, told.erase);
    told.erase += told.erase[turn] == ',' ? turn + 1 : 0;
    if (strcmp(told.move, "request") == 0 && !line.was_erased)
        move_cable();
    if (strcmp(told.move, "lose") == 0 && strcmp(how, "lose") == 0)
        move_cable();
    line.was_erased = true;
    if (strcmp(how, "hush") == 0)
        line.hushed++;
    if (strcmp(how, "pass") == 0 || strcmp(how, "hush") == 0)
        send_to_board(packet);
    else if (strcmp(how, "lose") != 0)
        queue_hex(how, now_ms());
}

/* Whether a request is one that --reads is about. */
static bool is_told_of(const struct packet *packet)
{
    const char *text = strchr(told.reads, ':');

    return line.was_erased && !is_echo(packet) && (text == NULL || has_text(packet, (char)packet->bytes[4], text + 1));
}

static void take_request(const struct packet *packet)
{
    if (strcmp(told.move, "model") == 0 && has_text(packet, 'A', "C217")) {
        told.move = "";
        move_cable();
    }
    if (has_text(packet, 'E', "F0010001"))
        take_erase(packet);
    else if (!is_told_of(packet) || strcmp(told.reads, "pass") == 0)
        send_to_board(packet);
    else if (strncmp(told.reads, "null", 4) == 0)
        queue_hex(null_reply, now_ms());
}

static void take_reply(const struct packet *reply)
{
    struct packet changed = *reply, *packet = &changed;
    bool is_erased = has_text(packet, 'F', "00F001");

    if (told.echo_from != NULL && has_text(packet, 'D', "01")) {
        packet->bytes[packet->len - 2] ^= packet->bytes[3] ^ (uint8_t)told.echo_from[0];
        packet->bytes[3] = (uint8_t)told.echo_from[0];
    }
    if (is_erased && line.hushed > 0) {
        line.hushed--;
        return;
    }
    queue_bytes(packet->bytes, packet->len, now_ms() + told.late);
    if (told.twice)
        queue_bytes(packet->bytes, packet->len, now_ms() + told.late);
    if (is_erased && strcmp(told.move, "reply") == 0)
        move_cable();
}

/* Cuts bytes into packets and hands each whole one on. */
static void take_bytes(struct packet *so_far, const uint8_t *bytes, ssize_t n, void (*take)(const struct packet *))
{
    for (ssize_t i = 0; i < n; i++) {
        if (!add_byte(so_far, bytes[i]))
            continue;
        take(so_far);
        so_far->len = 0;
    }
}

static void read_board(void)
{
    uint8_t bytes[256];
    ssize_t n = read(line.board, bytes, sizeof bytes);

    if (n <= 0)
        leave_board();
    else
        take_bytes(&line.from_board, bytes, n, take_reply);
}

static void read_bench(void)
{
    uint8_t bytes[256];
    ssize_t n = read(line.bench, bytes, sizeof bytes);

    line.heard_bench = now_ms();
    if (n > 0)
        take_bytes(&line.from_bench, bytes, n, take_request);
    else if (line.listener >= 0 && !(n < 0 && errno == EAGAIN))
        leave_bench();
}

/* ---- the ends */

static void open_pty(void)
{
    struct termios raw;
    int other_end;

    line.bench = posix_openpt(O_RDWR | O_NOCTTY | O_NONBLOCK | O_CLOEXEC);
    if (line.bench < 0 || grantpt(line.bench) != 0 || unlockpt(line.bench) != 0)
        fail("pseudo-terminal");
    other_end = open(ptsname(line.bench), O_RDWR | O_NOCTTY | O_CLOEXEC); /* keeps the line alive between two clients */
    if (other_end < 0 || tcgetattr(other_end, &raw) != 0)
        fail("pseudo-terminal");
    cfmakeraw(&raw);
    if (tcsetattr(other_end, TCSANOW, &raw) != 0)
        fail("pseudo-terminal");
    puts(ptsname(line.bench));
    queue_old();
}

static void open_listener(void)
{
    struct sockaddr_in address = {.sin_family = AF_INET, .sin_addr.s_addr = htonl(INADDR_LOOPBACK)};
    socklen_t len = sizeof address;

    line.listener = socket(AF_INET, SOCK_STREAM | SOCK_CLOEXEC, 0);
    if (line.listener < 0 || bind(line.listener, (struct sockaddr *)&address, len) != 0 || listen(line.listener, 1) != 0)
        fail("listen");
    if (getsockname(line.listener, (struct sockaddr *)&address, &len) != 0)
        fail("getsockname");
    printf("%d\n", ntohs(address.sin_port));
}

static void take_client(void)
{
    line.bench = accept4(line.listener, NULL, NULL, SOCK_NONBLOCK | SOCK_CLOEXEC);
    line.from_bench.len = 0;
    queue_old();
}

static void on_move(int signal)
{
    (void)signal;
    line.moves++;
}

/* Waits a little, and does what is ready. */
static void serve(void)
{
    struct pollfd waits[] = {{.fd = line.bench, .events = POLLIN},
                             {.fd = line.board, .events = POLLIN},
                             {.fd = line.bench < 0 ? line.listener : -1, .events = POLLIN}};

    if (poll(waits, 3, 5) < 0 && errno != EINTR)
        fail("poll");
    for (; line.moves > 0; line.moves--)
        move_cable();
    if (waits[0].revents != 0)
        read_bench();
    else if (line.from_bench.len > 0 && now_ms() - line.heard_bench > CUT_MS) {
        send_to_board(&line.from_bench); /* half a packet */
        line.from_bench.len = 0;
    }
    if (waits[1].revents != 0 && line.board == waits[1].fd)
        read_board();
    if (waits[2].revents != 0)
        take_client();
    try_board();
    send_due();
    if (told.relay && line.board < 0 && line.bench >= 0)
        leave_bench();
}

static void take_option(const char *name, const char *value)
{
    if (strcmp(name, "--erase") == 0)
        told.erase = value;
    else if (strcmp(name, "--reads") == 0)
        told.reads = value;
    else if (strcmp(name, "--move") == 0)
        told.move = value;
    else if (strcmp(name, "--echo-from") == 0)
        told.echo_from = value;
    else if (strcmp(name, "--pace") == 0)
        told.pace = strtol(value, NULL, 10);
    else if (strcmp(name, "--drop") == 0)
        told.drop = strtol(value, NULL, 10);
    else if (strcmp(name, "--late") == 0)
        told.late = strtol(value, NULL, 10);
    else if (strcmp(name, "--noise") == 0)
        told.noise = strtol(value, NULL, 10);
    else if (strcmp(name, "--old") == 0)
        told.old[told.olds++] = value;
    else
        fail(name);
}

int main(int argc, char **argv)
{
    struct sigaction move = {.sa_handler = on_move};
    int i = 1;

    alarm(LIFE_S);
    signal(SIGPIPE, SIG_IGN);
    sigaction(SIGUSR1, &move, NULL);
    for (; i < argc && argv[i][0] == '-'; i++) {
        if (strcmp(argv[i], "--pty") == 0 || strcmp(argv[i], "--tcp") == 0)
            told.pty = argv[i][2] == 'p';
        else if (strcmp(argv[i], "--twice") == 0)
            told.twice = true;
        else if (strcmp(argv[i], "--relay") == 0)
            told.relay = true;
        else if (i + 1 < argc)
            take_option(argv[i], argv[i + 1]), i++;
    }
    told.boards = argv + i;
    if (told.pty)
        open_pty();
    else
        open_listener();
    fflush(stdout);
    for (;;)
        serve();
}
