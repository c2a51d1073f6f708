/*
 * Tries boardsim as a program: on its line, on its store file, and killed at any moment.
 *
 *   boardsim_from_outside PROGRAM FOLDER behaviour   options, refused and old stores, one client at a time, gaps, erases, the log
 *   boardsim_from_outside PROGRAM FOLDER kills       300 erases killed at random moments; each start after that finishes the erase;
 *                                                    starts killed that make a store or convert one
 *   boardsim_from_outside PROGRAM FOLDER junk        a million random bytes; a thousand packets with one byte damaged
 *
 * FOLDER is for store files. A failure ends the program with status 1 and a sentence.
 */
#define _GNU_SOURCE /* pipe2 */

#include "board.h"

#include <errno.h>
#include <fcntl.h>
#include <netinet/in.h>
#include <poll.h>
#include <signal.h>
#include <stdarg.h>
#include <stdbool.h>
#include <stdio.h>
#include <stdlib.h>
#include <string.h>
#include <sys/mman.h>
#include <sys/socket.h>
#include <sys/stat.h>
#include <sys/wait.h>
#include <time.h>
#include <unistd.h>

#define COUNT(array) (sizeof(array) / sizeof(array)[0])

#define SEED UINT64_C(0x5EED0005)

static const char *program;
static char store_path[4000];

/* ---- failing */

static pid_t running; /* the boardsim to end with this program, or 0 */

#define REQUIRE(good, ...) ((good) ? (void)0 : fail(__LINE__, __VA_ARGS__))

__attribute__((format(printf, 2, 3), noreturn)) static void fail(int line, const char *format, ...)
{
    va_list values;

    fprintf(stderr, "%s:%d: ", __FILE__, line);
    va_start(values, format);
    vfprintf(stderr, format, values);
    va_end(values);
    fprintf(stderr, " (errno: %s; seed %llX)\n", strerror(errno), (unsigned long long)SEED);
    if (running != 0)
        kill(running, SIGKILL);
    exit(1);
}

/* A test that hangs fails. */
enum { TIME_LIMIT_S = 600 };

static void time_out(int signal)
{
    static const char words[] = "boardsim_from_outside: no end in sight\n";
    ssize_t written = write(STDERR_FILENO, words, sizeof words - 1);

    (void)signal;
    (void)written;
    if (running != 0)
        kill(running, SIGKILL);
    _exit(1);
}

/* ---- random numbers from a fixed seed, and time */

static uint64_t random_state = SEED;

static uint64_t random_number(void)
{
    uint64_t z = random_state += 0x9E3779B97F4A7C15;

    z = (z ^ z >> 30) * 0xBF58476D1CE4E5B9;
    z = (z ^ z >> 27) * 0x94D049BB133111EB;
    return z ^ z >> 31;
}

static unsigned random_below(unsigned end)
{
    return (unsigned)(random_number() % end);
}

static void wait_us(unsigned microseconds)
{
    struct timespec time = {.tv_sec = microseconds / 1000000, .tv_nsec = (long)(microseconds % 1000000) * 1000};

    while (nanosleep(&time, &time) != 0 && errno == EINTR)
        continue;
}

static void wait_ms(unsigned milliseconds)
{
    wait_us(1000 * milliseconds);
}

/* ---- store files */

static void write_store(const void *bytes, size_t n)
{
    int file = open(store_path, O_WRONLY | O_CREAT | O_TRUNC, 0644);

    REQUIRE(file >= 0 && write(file, bytes, n) == (ssize_t)n && close(file) == 0, "can't write %s", store_path);
}

/* The store file's bytes, and how many there are, at most 200; -1 where there is no file. */
static ssize_t read_store(uint8_t *bytes)
{
    int file = open(store_path, O_RDONLY);
    ssize_t n;

    if (file < 0)
        return -1;
    n = read(file, bytes, 200);
    close(file);
    return n;
}

static void remove_store(void)
{
    REQUIRE(unlink(store_path) == 0 || errno == ENOENT, "can't remove %s", store_path);
}

static const uint8_t *unused_store(void)
{
    static uint8_t unused[BOARD_STORE_SIZE];

    REQUIRE(board_unused(unused, sizeof unused) == 0, "no unused store");
    return unused;
}

/* The marks: of a store without programs, of one with them, and while an erase is pending. */
enum { OLD_MARK = 0x00, MARK = 0x01, ERASE_MARK = 0xE7 };

enum { PROGRAMS_AT = 44, PROGRAMS_END = 79 };

/* A store without programs, which holds anything in their place, and what a start makes of it. */
static void make_old_store(uint8_t *old, uint8_t *converted)
{
    memcpy(converted, unused_store(), BOARD_STORE_SIZE);
    for (size_t i = PROGRAMS_END; i < BOARD_STORE_SIZE; i++)
        converted[i] = (uint8_t)random_number();
    memcpy(old, converted, BOARD_STORE_SIZE);
    for (size_t i = PROGRAMS_AT; i < PROGRAMS_END; i++)
        old[i] = (uint8_t)random_number();
    old[0] = OLD_MARK;
}

static void expect_store(int line, const uint8_t *expected)
{
    uint8_t bytes[200];

    if (read_store(bytes) != BOARD_STORE_SIZE || memcmp(bytes, expected, BOARD_STORE_SIZE) != 0)
        fail(line, "the store file holds other bytes");
}

#define EXPECT_STORE(expected) expect_store(__LINE__, (expected))

static uint8_t stored_byte(size_t place)
{
    uint8_t bytes[200];

    REQUIRE(read_store(bytes) == BOARD_STORE_SIZE, "the store file has another size");
    return bytes[place];
}

static uint8_t stored_mark(void)
{
    return stored_byte(0);
}

enum { TRIES = 50000, TRY_US = 200 };

static void wait_for_mark(uint8_t mark)
{
    for (int tries = 0; stored_mark() != mark; tries++) {
        REQUIRE(tries < TRIES, "the mark did not become %02X", mark);
        wait_us(TRY_US);
    }
}

/* Waits until the store file holds other bytes. */
static void wait_for_change(const uint8_t *before)
{
    uint8_t bytes[200];

    for (int tries = 0; read_store(bytes) != BOARD_STORE_SIZE || memcmp(bytes, before, BOARD_STORE_SIZE) == 0; tries++) {
        REQUIRE(tries < TRIES, "the store file did not change");
        wait_us(TRY_US);
    }
}

/* ---- boardsim as a child */

enum { WORDS = 24 };

struct child {
    pid_t pid;
    int out;        /* its standard output */
    char name[100]; /* what it printed there: a device or a port */
};

/* Becomes the program. Standard error goes to the file `log`, where there is such a name. */
static void run_child(char **words, int out, const char *log)
{
    int file = log != NULL ? open(log, O_WRONLY | O_CREAT | O_TRUNC, 0644) : -1;

    if (log != NULL && (file < 0 || dup2(file, STDERR_FILENO) < 0))
        _exit(99);
    if (dup2(out, STDOUT_FILENO) < 0)
        _exit(99);
    execv(program, words);
    _exit(99);
}

/* Starts the program with words that a null pointer ends. */
static struct child start_words(const char *log, char **words)
{
    struct child child = {0};
    int ends[2];

    REQUIRE(pipe2(ends, O_CLOEXEC) == 0, "no pipe");
    child.pid = fork();
    REQUIRE(child.pid >= 0, "no child");
    if (child.pid == 0)
        run_child(words, ends[1], log);
    close(ends[1]);
    child.out = ends[0];
    return child;
}

static int end_of(struct child *child)
{
    int status;

    REQUIRE(waitpid(child->pid, &status, 0) == child->pid, "the child is gone");
    close(child->out);
    running = 0;
    return status;
}

/* Reads the line that tells the device or the port. */
static void read_name(struct child *child)
{
    size_t n = 0;

    for (;;) {
        struct pollfd wait = {.fd = child->out, .events = POLLIN};

        REQUIRE(n + 1 < sizeof child->name && poll(&wait, 1, 10000) == 1, "boardsim told no name");
        REQUIRE(read(child->out, child->name + n, 1) == 1, "boardsim ended");
        if (child->name[n] == '\n')
            break;
        n++;
    }
    child->name[n] = '\0';
}

/* Starts a board of ID 1 on the store; `more` are its line and further options, ended by a null pointer. */
static struct child start_board(const char *log, const char *const *more)
{
    char *words[WORDS] = {(char *)program, "--store", store_path, "--id", "1", "--serial", "SN-0042", "--model", "M421"};
    struct child child;

    for (size_t n = 9; *more != NULL; n++)
        words[n] = (char *)*more++;
    child = start_words(log, words);
    running = child.pid;
    read_name(&child);
    return child;
}

#define START(log, ...) start_board((log), (const char *const[]){__VA_ARGS__, NULL})

/* Ends a board with SIGTERM, which it takes with status 0. */
static void stop_board(struct child *child)
{
    int status;

    REQUIRE(kill(child->pid, SIGTERM) == 0, "no boardsim to end");
    status = end_of(child);
    REQUIRE(WIFEXITED(status) && WEXITSTATUS(status) == 0, "boardsim ended with status %X", (unsigned)status);
}

static void kill_board(struct child *child)
{
    int status;

    REQUIRE(kill(child->pid, SIGKILL) == 0, "no boardsim to kill");
    status = end_of(child);
    REQUIRE(WIFSIGNALED(status) && WTERMSIG(status) == SIGKILL, "boardsim ended with status %X before it was killed",
            (unsigned)status);
}

/* ---- the line */

static int open_device(const struct child *child)
{
    int line = open(child->name, O_RDWR | O_NOCTTY | O_NONBLOCK | O_CLOEXEC);

    REQUIRE(line >= 0, "can't open %s", child->name);
    return line;
}

static int open_connection(const struct child *child)
{
    struct sockaddr_in address = {.sin_family = AF_INET, .sin_addr.s_addr = htonl(INADDR_LOOPBACK)};
    int line = socket(AF_INET, SOCK_STREAM | SOCK_CLOEXEC, 0);

    address.sin_port = htons((uint16_t)atoi(child->name));
    REQUIRE(line >= 0 && connect(line, (struct sockaddr *)&address, sizeof address) == 0, "can't connect to port %s", child->name);
    REQUIRE(fcntl(line, F_SETFL, O_NONBLOCK) == 0, "can't set up the connection");
    return line;
}

static void await(int line, short events)
{
    struct pollfd wait = {.fd = line, .events = events};

    REQUIRE(poll(&wait, 1, 10000) == 1, "the line stays silent");
}

static void send_bytes(int line, const void *bytes, size_t n)
{
    const uint8_t *from = bytes;

    while (n > 0) {
        ssize_t sent = write(line, from, n);

        REQUIRE(sent >= 0 || errno == EAGAIN, "can't send");
        if (sent < 0)
            await(line, POLLOUT);
        else
            from += sent, n -= (size_t)sent;
    }
}

/* Reads so many bytes, or up to the end; the result is how many there were. */
static size_t receive(int line, uint8_t *bytes, size_t n)
{
    size_t at = 0;

    while (at < n) {
        ssize_t got;

        await(line, POLLIN);
        got = read(line, bytes + at, n - at);
        REQUIRE(got >= 0 || errno == EAGAIN || errno == ECONNRESET, "can't receive");
        if (got == 0 || (got < 0 && errno == ECONNRESET))
            break;
        at += got > 0 ? (size_t)got : 0;
    }
    return at;
}

static void expect_silence(int line, int milliseconds)
{
    struct pollfd wait = {.fd = line, .events = POLLIN};

    REQUIRE(poll(&wait, 1, milliseconds) == 0, "the line is not silent");
}

/* ---- packets */

struct packet {
    size_t size;
    uint8_t bytes[80];
};

static struct packet packet_of(int destination, int source, int type, const char *text)
{
    struct packet p = {.size = strlen(text) + 11};
    char header[8];

    snprintf(header, sizeof header, "%c0%c%c%c%02X", 0x01, destination, source, type, (unsigned)(strlen(text) + 2) & 0xFF);
    memcpy(p.bytes, header, 7);
    p.bytes[7] = 0x02;
    memcpy(p.bytes + 8, text, strlen(text));
    p.bytes[p.size - 3] = 0x03;
    for (size_t i = 1; i < p.size - 2; i++)
        p.bytes[p.size - 2] ^= p.bytes[i];
    p.bytes[p.size - 1] = 0x0D;
    return p;
}

static void send_request(int line, int destination, int type, const char *text)
{
    struct packet p = packet_of(destination, '0', type, text);

    send_bytes(line, p.bytes, p.size);
}

static void expect_reply(int code_line, int line, int type, const char *text)
{
    struct packet reply = packet_of('0', 'A', type, text);
    uint8_t bytes[80];

    if (receive(line, bytes, reply.size) != reply.size || memcmp(bytes, reply.bytes, reply.size) != 0)
        fail(code_line, "another reply than %s", text);
}

#define EXPECT_REPLY(line, type, text) expect_reply(__LINE__, (line), (type), (text))

/* A request to ID 1 and its reply. */
static void exchange(int code_line, int line, int type, const char *text, int reply_type, const char *reply)
{
    send_request(line, 'A', type, text);
    expect_reply(code_line, line, reply_type, reply);
}

#define EXCHANGE(...) exchange(__LINE__, __VA_ARGS__)

static const char erase_text[] = "F0010001", erase_reply[] = "00F0010100010001", backlight_unused[] = "0000100000640046";

/* Settings, a date, two tags and a program, so that there is something to erase. */
static void use_board(int line)
{
    EXCHANGE(line, 'E', "00100064", 'F', "0000100000640064");
    EXCHANGE(line, 'E', "104A0002", 'F', "00104A0000020002");
    EXCHANGE(line, 'A', "C2121A0B0F00171E00", 'B', "C312001A0B0F00171E00");
    EXCHANGE(line, 'A', "F011486F74656C20353133", 'B', "F11100486F74656C20353133");
    EXCHANGE(line, 'A', "F011526F6F6D20313034", 'B', "F11100526F6F6D20313034");
    EXCHANGE(line, 'A', "C222020700171E111F060000000000000000", 'B', "C32200020700171E111F060000000000000000");
}

/* The reply of an unused board to everything that was used. */
static void expect_unused(int line)
{
    EXCHANGE(line, 'C', "0010", 'D', backlight_unused);
    EXCHANGE(line, 'C', "104A", 'D', "00104A0000020001");
    EXCHANGE(line, 'A', "C211", 'B', "C31100010106000000");
    EXCHANGE(line, 'A', "F010", 'B', "F110");
    EXCHANGE(line, 'A', "F012", 'B', "F112");
    EXCHANGE(line, 'A', "C22102", 'B', "C32102183C183C0000000000000000000000");
}

/* ---- behaviour */

/* Runs boardsim with words and gives its exit status; it must end by itself. */
static int status_of(const char *const *more)
{
    char *words[WORDS] = {(char *)program};
    struct child child;
    int status;

    for (size_t n = 1; *more != NULL; n++)
        words[n] = (char *)*more++;
    child = start_words("/dev/null", words);
    running = child.pid;
    status = end_of(&child);
    REQUIRE(WIFEXITED(status), "boardsim ended with status %X", (unsigned)status);
    return WEXITSTATUS(status);
}

#define STATUS(...) status_of((const char *const[]){__VA_ARGS__, NULL})
#define BOARD_1 "--store", store_path, "--id", "1", "--serial", "S", "--model", "M"

static void try_usage(void)
{
    remove_store();
    REQUIRE(STATUS("--help") == 0, "--help");
    REQUIRE(status_of((const char *const[]){NULL}) == 2, "no options");
    REQUIRE(STATUS("--pty") == 2, "no store");
    REQUIRE(STATUS(BOARD_1) == 2, "no line");
    REQUIRE(STATUS(BOARD_1, "--pty", "--tcp", "0") == 2, "two lines");
    REQUIRE(STATUS(BOARD_1, "--pty", "--listen", "127.0.0.1") == 2, "--listen with --pty");
    REQUIRE(STATUS(BOARD_1, "--pty", "--idle-ms", "100") == 2, "--idle-ms with --pty");
    REQUIRE(STATUS(BOARD_1, "--tcp", "0", "--idle-ms", "0") == 2, "an idle time of 0");
    REQUIRE(STATUS(BOARD_1, "--pty", "--store", "") == 2, "a store without a name");
    REQUIRE(STATUS(BOARD_1, "--pty", "more") == 2, "a word more");
    REQUIRE(STATUS(BOARD_1, "--pty", "--other") == 2, "another option");
    REQUIRE(STATUS(BOARD_1, "--pty", "-x") == 2, "another letter");
    REQUIRE(STATUS(BOARD_1, "--tcp") == 2, "no port");
    REQUIRE(STATUS(BOARD_1, "--tcp", "65536") == 2, "port 65536");
    REQUIRE(STATUS(BOARD_1, "--tcp", "x") == 2, "port x");
    REQUIRE(STATUS(BOARD_1, "--pty", "--id", "0") == 2, "ID 0");
    REQUIRE(STATUS(BOARD_1, "--pty", "--id", "9") == 2, "ID 9");
    REQUIRE(STATUS(BOARD_1, "--pty", "--id", "1x") == 2, "ID 1x");
    REQUIRE(STATUS(BOARD_1, "--pty", "--id", "") == 2, "no ID");
    REQUIRE(STATUS(BOARD_1, "--pty", "--serial", "12345678901234567") == 2, "a long serial number");
    REQUIRE(STATUS(BOARD_1, "--pty", "--model", "12345678901234567") == 2, "a long model");
    REQUIRE(STATUS(BOARD_1, "--pty", "--step-ms", "-1") == 2, "a negative time");
    REQUIRE(STATUS(BOARD_1, "--tcp", "0", "--listen", "no such address") == 3, "an address that is none");
    remove_store();
}

static void expect_store_refused(const uint8_t *bytes, size_t n, const char *what)
{
    uint8_t after[200];

    write_store(bytes, n);
    REQUIRE(STATUS(BOARD_1, "--pty") == 1, "%s: not refused", what);
    REQUIRE(read_store(after) == (ssize_t)n && memcmp(after, bytes, n) == 0, "%s: changed", what);
}

static void try_stores(void)
{
    uint8_t bytes[129] = {0};
    struct child child;

    REQUIRE(STATUS("--store", "/no/such/folder/store", "--id", "1", "--serial", "", "--model", "", "--pty") == 3, "no folder");
    memcpy(bytes, unused_store(), BOARD_STORE_SIZE);
    expect_store_refused(bytes, 0, "a store of 0 bytes");
    expect_store_refused(bytes, 127, "a store of 127 bytes");
    expect_store_refused(bytes, 129, "a store of 129 bytes");
    bytes[0] = 0x02;
    expect_store_refused(bytes, 128, "mark 02h");
    bytes[0] = MARK;
    bytes[PROGRAMS_AT] = 0xFF;
    expect_store_refused(bytes, 128, "hour 31 in a program");
    bytes[1] = 0xFF;
    expect_store_refused(bytes, 128, "backlight 127");
    bytes[0] = OLD_MARK;
    expect_store_refused(bytes, 128, "backlight 127, and no programs");
    bytes[0] = ERASE_MARK;
    write_store(bytes, 128);
    child = START(NULL, "--pty"); /* with E7h no field matters, and the erase is finished */
    wait_for_mark(MARK);
    EXPECT_STORE(unused_store());
    REQUIRE(STATUS(BOARD_1, "--pty") == 3, "two boards on one store");
    stop_board(&child);
    remove_store();
    child = START(NULL, "--pty");
    EXPECT_STORE(unused_store());
    stop_board(&child);
    EXPECT_STORE(unused_store());
}

enum { TOGETHER = 4, ROUNDS = 20 };

/* Whether a board runs and has told its name; where it has ended instead, gives its exit status. */
static bool has_name(struct child *child, int *status)
{
    struct pollfd wait = {.fd = child->out, .events = POLLIN};

    REQUIRE(poll(&wait, 1, 10000) == 1, "boardsim neither told its name nor ended");
    if ((wait.revents & POLLIN) != 0) {
        read_name(child);
        return true;
    }
    *status = end_of(child);
    return false;
}

/* Boards that are started together on a store that is not there yet: one runs, and what it stores stays. */
static void try_together(void)
{
    char *words[WORDS] = {(char *)program, BOARD_1, "--pty"};

    for (int round = 0; round < ROUNDS; round++) {
        struct child children[TOGETHER], runs = {0};
        int running_boards = 0, line;

        remove_store();
        for (int i = 0; i < TOGETHER; i++)
            children[i] = start_words("/dev/null", words);
        for (int i = 0; i < TOGETHER; i++) {
            int status = 0;

            if (has_name(&children[i], &status)) {
                running_boards++;
                runs = children[i];
            } else {
                REQUIRE(WIFEXITED(status) && WEXITSTATUS(status) == 3, "boardsim ended with status %X", (unsigned)status);
            }
        }
        REQUIRE(running_boards == 1, "%d boards run on one store", running_boards);
        line = open_device(&runs);
        EXCHANGE(line, 'A', "F01141", 'B', "F1110041");
        REQUIRE(stored_byte(12) == 0x41, "what a board stored is not in the file");
        close(line);
        stop_board(&runs);
    }
    remove_store();
}

/* A link that leads nowhere is left alone. */
static void try_link(void)
{
    struct stat about;

    remove_store();
    REQUIRE(symlink("/no/such/folder/store", store_path) == 0, "can't make a link");
    REQUIRE(STATUS(BOARD_1, "--pty") == 3, "a link that leads nowhere is taken");
    REQUIRE(lstat(store_path, &about) == 0 && S_ISLNK(about.st_mode), "a link that leads nowhere is replaced");
    remove_store();
}

/* Waits for a board's end, which comes by itself, and gives its exit status. */
static int ended_by_itself(struct child *child)
{
    int status = end_of(child);

    REQUIRE(WIFEXITED(status), "boardsim ended with status %X", (unsigned)status);
    return WEXITSTATUS(status);
}

/* A store that another program cuts or changes while a board runs on it is noticed before anything is stored, and left as it is. */
static void try_changed_stores(void)
{
    uint8_t bytes[200], changed[BOARD_STORE_SIZE];
    struct child child = START("/dev/null", "--pty");
    int line = open_device(&child);

    REQUIRE(truncate(store_path, 100) == 0, "can't cut the store");
    send_request(line, 'A', 'E', "00100064");
    REQUIRE(ended_by_itself(&child) == 1, "a store that was cut");
    REQUIRE(read_store(bytes) == 100, "a store that was cut is changed");
    close(line);
    remove_store();
    child = START("/dev/null", "--pty");
    line = open_device(&child);
    memcpy(changed, unused_store(), sizeof changed);
    changed[100] = 1;
    write_store(changed, sizeof changed);
    send_request(line, 'A', 'E', "00100064");
    REQUIRE(ended_by_itself(&child) == 1, "a store that was changed");
    EXPECT_STORE(changed);
    close(line);
    remove_store();
    child = START("/dev/null", "--pty");
    REQUIRE(truncate(store_path, 0) == 0 && kill(child.pid, SIGTERM) == 0, "can't cut the store");
    REQUIRE(ended_by_itself(&child) == 1, "a store that was cut, at the end");
    remove_store();
}

/* A store that is moved away is no more the board's; another board may take its name. */
static void try_moved_store(void)
{
    char moved[4100];
    struct child first = START("/dev/null", "--pty"), second;
    int line = open_device(&first);

    snprintf(moved, sizeof moved, "%s.moved", store_path);
    REQUIRE(rename(store_path, moved) == 0, "can't move the store");
    second = START("/dev/null", "--pty");
    send_request(line, 'A', 'E', "00100064");
    REQUIRE(ended_by_itself(&first) == 1, "a store that was moved");
    EXPECT_STORE(unused_store());
    close(line);
    running = second.pid;
    stop_board(&second);
    REQUIRE(unlink(moved) == 0, "can't remove the store");
    remove_store();
}

/* A client that moves no byte has to go, so that the next is served; the time of an erase does not count. */
static void try_idle_clients(void)
{
    const struct packet request = packet_of('A', '0', 'C', "0010");
    struct child child = START(NULL, "--tcp", "0", "--idle-ms", "400", "--step-ms", "8");
    int line = open_connection(&child), next;
    uint8_t byte;

    EXCHANGE(line, 'C', "0010", 'D', backlight_unused);
    REQUIRE(receive(line, &byte, 1) == 0, "an idle client is kept");
    close(line);
    line = open_connection(&child);
    REQUIRE(receive(line, &byte, 1) == 0, "a client that never says a thing is kept");
    close(line);
    line = open_connection(&child);
    EXCHANGE(line, 'E', erase_text, 'F', erase_reply); /* it takes a second */
    EXCHANGE(line, 'C', "0010", 'D', backlight_unused);
    for (ssize_t sent = 0; sent >= 0;) /* until nothing more can be sent, since no reply is taken */
        sent = write(line, request.bytes, request.size);
    REQUIRE(errno == EAGAIN, "can't send");
    wait_ms(10000); /* the board first takes what is on its way, over a megabyte */
    next = open_connection(&child);
    EXCHANGE(next, 'C', "0010", 'D', backlight_unused);
    close(next);
    close(line);
    stop_board(&child);
}

/* One client at a time: a second one is turned away; when the first has gone, the next is served. */
static void try_clients(void)
{
    const struct packet good = packet_of('A', '0', 'C', "0010");
    struct child child = START(NULL, "--tcp", "0");
    int first = open_connection(&child), second;
    uint8_t byte;

    EXCHANGE(first, 'C', "0010", 'D', backlight_unused);
    for (int i = 0; i < 5; i++) {
        second = open_connection(&child);
        REQUIRE(receive(second, &byte, 1) == 0, "a second client is served");
        close(second);
        EXCHANGE(first, 'C', "0010", 'D', backlight_unused);
    }
    for (int i = 0; i < 50; i++) {
        send_bytes(first, good.bytes, 4); /* the end of the connection is a gap */
        close(first);
        first = open_connection(&child);
        EXCHANGE(first, 'C', "0010", 'D', backlight_unused);
    }
    send_request(first, 'A', 'E', erase_text); /* a client that sends no more still gets what it is owed */
    REQUIRE(shutdown(first, SHUT_WR) == 0, "can't end the sending");
    EXPECT_REPLY(first, 'F', erase_reply);
    REQUIRE(receive(first, &byte, 1) == 0, "the connection goes on");
    close(first);
    stop_board(&child);
}

/* Sends a packet with a pause in it that is no gap. False where this program had to wait too long itself. */
static bool sent_in_halves(int line, const struct packet *p)
{
    struct timespec begin, end;

    clock_gettime(CLOCK_MONOTONIC, &begin);
    send_bytes(line, p->bytes, 6);
    wait_ms(20);
    clock_gettime(CLOCK_MONOTONIC, &end);
    if ((end.tv_sec - begin.tv_sec) * 1000 + (end.tv_nsec - begin.tv_nsec) / 1000000 > 60)
        return false;
    send_bytes(line, p->bytes + 6, p->size - 6);
    return true;
}

static void try_gaps(void)
{
    const struct packet good = packet_of('A', '0', 'C', "0010");
    struct child child = START(NULL, "--pty");
    int line = open_device(&child);

    send_bytes(line, good.bytes, 6);
    wait_ms(400);
    EXCHANGE(line, 'C', "0010", 'D', backlight_unused);
    while (!sent_in_halves(line, &good))
        expect_silence(line, 400);
    EXPECT_REPLY(line, 'D', backlight_unused);
    close(line);
    line = open_device(&child); /* the next user of the device */
    EXCHANGE(line, 'C', "0010", 'D', backlight_unused);
    close(line);
    stop_board(&child);
}

enum { MANY = 2000 };

/* Many requests at once, whose replies are read only when no more can be sent: each gets its reply. */
static void try_many_requests(void)
{
    const struct packet request = packet_of('A', '0', 'C', "0010"), reply = packet_of('0', 'A', 'D', backlight_unused);
    struct child child = START(NULL, "--pty");
    int line = open_device(&child);
    size_t all = MANY * request.size, sent = 0, received = 0;

    while (received < MANY * reply.size) {
        size_t place = sent % request.size;
        ssize_t n = sent < all ? write(line, request.bytes + place, request.size - place) : 0;
        uint8_t bytes[80];

        if (n > 0) {
            sent += (size_t)n;
            continue;
        }
        await(line, sent < all ? POLLIN | POLLOUT : POLLIN);
        n = read(line, bytes, sizeof bytes);
        for (ssize_t i = 0; i < n; i++, received++)
            REQUIRE(bytes[i] == reply.bytes[received % reply.size], "another reply");
    }
    REQUIRE(sent == all, "too many replies");
    expect_silence(line, 50);
    close(line);
    stop_board(&child);
}

/* While an erase runs, the board listens to nothing; its end in between is a cut. */
static void try_erases(void)
{
    struct child child = START(NULL, "--pty", "--step-ms", "8");
    int line = open_device(&child);

    use_board(line);
    send_request(line, 'A', 'E', erase_text);
    wait_for_mark(ERASE_MARK);
    send_request(line, 'A', 'C', "0010");
    EXPECT_REPLY(line, 'F', erase_reply);
    expect_silence(line, 150);
    expect_unused(line);
    use_board(line);
    send_request(line, '*', 'E', erase_text);
    wait_for_mark(ERASE_MARK);
    stop_board(&child);
    close(line);
    REQUIRE(stored_mark() == ERASE_MARK, "an erase ended too soon");
    child = START(NULL, "--pty");
    line = open_device(&child);
    wait_for_mark(MARK);
    EXPECT_STORE(unused_store());
    expect_unused(line);
    close(line);
    stop_board(&child);
}

/* Waits until the log has so many lines. */
static void wait_for_lines(const char *path, size_t count)
{
    for (int tries = 0; tries < TRIES; tries++) {
        FILE *file = fopen(path, "r");
        size_t lines = 0;
        int c;

        REQUIRE(file != NULL, "no log");
        while ((c = getc(file)) != EOF)
            lines += c == '\n';
        fclose(file);
        if (lines >= count)
            return;
        wait_us(TRY_US);
    }
    fail(__LINE__, "fewer than %zu lines in the log", count);
}

static void expect_log(const char *path, const char *const *lines, size_t count)
{
    FILE *file = fopen(path, "r");
    char line[300];

    REQUIRE(file != NULL, "no log");
    for (size_t i = 0; i < count; i++) {
        REQUIRE(fgets(line, sizeof line, file) != NULL, "the log ends before '%s'", lines[i]);
        REQUIRE(strncmp(line, lines[i], strlen(lines[i])) == 0, "'%s' in the log instead of '%s'", line, lines[i]);
    }
    REQUIRE(fgets(line, sizeof line, file) == NULL, "'%s' in the log", line);
    fclose(file);
}

/* A line in the log for each answer other than waiting and more. */
static void try_log(void)
{
    static const char *const lines[] = {
        "refused 1: ", "reply 01303041463132023030303031303030303036343030363403040D\n", "silent\n", "refused 8: ",
        "begun\n",     "reply 01303041463132023030463030313031303030313030303103730D\n", "begun\n",  "ended\n",
    };
    char log[4100];
    struct child child;
    int line;

    snprintf(log, sizeof log, "%s.log", store_path);
    child = START(log, "--pty", "-v");
    line = open_device(&child);
    send_bytes(line, "x", 1);
    EXCHANGE(line, 'E', "00100064", 'F', "0000100000640064");
    send_request(line, '*', 'E', "00100032");
    send_request(line, 'B', 'E', "00100032");
    EXCHANGE(line, 'E', erase_text, 'F', erase_reply);
    send_request(line, '*', 'E', erase_text);
    wait_for_lines(log, COUNT(lines));
    expect_silence(line, 50);
    close(line);
    stop_board(&child);
    expect_log(log, lines, COUNT(lines));
    unlink(log);
}

/* A store without programs is converted by the start, before the board answers; one line says so, and the next start says nothing.
 */
static void try_old_store(void)
{
    static const char *const lines[] = {"boardsim: the store "};
    uint8_t old[BOARD_STORE_SIZE], converted[BOARD_STORE_SIZE];
    char log[4100];
    struct child child;
    int line;

    snprintf(log, sizeof log, "%s.log", store_path);
    make_old_store(old, converted);
    write_store(old, sizeof old);
    child = START(log, "--pty");
    EXPECT_STORE(converted);
    line = open_device(&child);
    EXCHANGE(line, 'A', "C22106", 'B', "C32106183C183C0000000000000000000000");
    close(line);
    stop_board(&child);
    EXPECT_STORE(converted);
    expect_log(log, lines, COUNT(lines));
    child = START(log, "--pty");
    stop_board(&child);
    EXPECT_STORE(converted);
    expect_log(log, lines, 0);
    unlink(log);
    remove_store();
}

/* SIGINT ends it as SIGTERM does. */
static void try_interrupt(void)
{
    struct child child = START(NULL, "--tcp", "0");
    int status;

    REQUIRE(kill(child.pid, SIGINT) == 0, "no boardsim to end");
    status = end_of(&child);
    REQUIRE(WIFEXITED(status) && WEXITSTATUS(status) == 0, "boardsim ended with status %X", (unsigned)status);
}

static void try_behaviour(void)
{
    try_usage();
    try_stores();
    try_together();
    try_link();
    try_changed_stores();
    try_moved_store();
    try_clients();
    try_idle_clients();
    try_gaps();
    try_many_requests();
    try_erases();
    try_log();
    try_old_store();
    try_interrupt();
    printf("boardsim: options, stores, clients, gaps, %d requests at once, erases and log as they should be\n", MANY);
}

/* ---- kills */

enum { ERASES = 300, NEW_STORES = 60 };

/* A store in the middle of an erase: E7h, then unused bytes up to some place, then bytes as they were before. */
static void expect_partly_erased(const uint8_t *before)
{
    const uint8_t *unused = unused_store();
    uint8_t now[200];
    size_t place = 1;

    REQUIRE(read_store(now) == BOARD_STORE_SIZE && now[0] == ERASE_MARK, "no erase in the store file");
    while (place < BOARD_STORE_SIZE && now[place] == unused[place])
        place++;
    REQUIRE(memcmp(now + place, before + place, BOARD_STORE_SIZE - place) == 0, "bytes behind %zu changed", place);
}

/* Starts a board whose erase is pending and kills it while it erases. */
static bool kill_again(void)
{
    struct child child = START(NULL, "--tcp", "0", "--step-ms", "1");
    bool caught;

    wait_us(random_below(110000));
    kill_board(&child);
    caught = stored_mark() == ERASE_MARK;
    return caught;
}

/* The start after the last cut: the erase runs to its end, and the board is as one never used. */
static void finish_erase(void)
{
    struct child child = START(NULL, "--pty");
    int line = open_device(&child);

    wait_for_mark(MARK);
    EXPECT_STORE(unused_store());
    expect_unused(line);
    close(line);
    stop_board(&child);
    EXPECT_STORE(unused_store());
}

/* One erase of a board in use, killed once or twice; says how often it was caught in the middle. */
static int killed_erase(bool twice)
{
    uint8_t before[200], old[BOARD_STORE_SIZE];
    struct child child;
    int line, caught = 0;

    make_old_store(old, before);
    write_store(random_below(4) == 0 ? old : before, BOARD_STORE_SIZE);
    child = START("/dev/null", "--pty", "--step-ms", "1");
    line = open_device(&child);
    use_board(line);
    REQUIRE(read_store(before) == BOARD_STORE_SIZE, "no store");
    send_request(line, random_below(4) == 0 ? '*' : 'A', 'E', erase_text);
    wait_for_change(before);
    wait_us(random_below(128000));
    kill_board(&child);
    close(line);
    if (stored_mark() == ERASE_MARK) {
        caught++;
        expect_partly_erased(before);
        caught += twice && kill_again();
    }
    finish_erase();
    return caught;
}

/* A store file is made whole or not at all, wherever a kill comes. */
static int killed_new_store(void)
{
    char *words[WORDS] = {(char *)program, BOARD_1, "--pty"};
    uint8_t bytes[200];
    struct child child;
    ssize_t n;

    remove_store();
    child = start_words(NULL, words);
    wait_us(random_below(2500));
    kill_board(&child);
    n = read_store(bytes);
    REQUIRE(n == -1 || (n == BOARD_STORE_SIZE && memcmp(bytes, unused_store(), BOARD_STORE_SIZE) == 0), "half a store file");
    return n != -1;
}

/* A start converts a store file whole or not at all, wherever a kill comes. */
static int killed_conversion(void)
{
    char *words[WORDS] = {(char *)program, BOARD_1, "--pty"};
    uint8_t old[BOARD_STORE_SIZE], converted[BOARD_STORE_SIZE], bytes[200];
    struct child child;
    bool is_converted;

    make_old_store(old, converted);
    write_store(old, sizeof old);
    child = start_words("/dev/null", words);
    wait_us(random_below(2500));
    kill_board(&child);
    REQUIRE(read_store(bytes) == BOARD_STORE_SIZE, "the store file has another size");
    is_converted = memcmp(bytes, converted, sizeof converted) == 0;
    REQUIRE(is_converted || memcmp(bytes, old, sizeof old) == 0, "a store file that is converted in part");
    return is_converted;
}

static void try_kills(void)
{
    int caught = 0, made = 0, converted = 0;

    for (int i = 0; i < ERASES; i++)
        caught += killed_erase(i % 3 == 0);
    REQUIRE(caught >= ERASES / 2, "only %d kills came in the middle of an erase", caught);
    for (int i = 0; i < NEW_STORES; i++)
        made += killed_new_store();
    for (int i = 0; i < NEW_STORES; i++)
        converted += killed_conversion();
    printf("boardsim: %d erases killed, %d times in the middle, each finished by the next start; seed %llX\n", ERASES, caught,
           (unsigned long long)SEED);
    printf("boardsim: %d starts without a store killed, %d with one made, none with half of one\n", NEW_STORES, made);
    printf("boardsim: %d starts on an old store killed, %d with it converted, none with a part of it\n", NEW_STORES, converted);
}

/* ---- junk */

enum { RANDOM_BYTES = 1000000, DAMAGED = 1000, DAMAGED_SLOWLY = 25 };

/* Reads and drops what has come. */
static size_t drain(int line)
{
    uint8_t bytes[512];
    ssize_t n = read(line, bytes, sizeof bytes);

    REQUIRE(n > 0 || (n < 0 && errno == EAGAIN), "can't receive");
    return n > 0 ? (size_t)n : 0;
}

/* Random bytes, half of them such as packets have, so that headers come up too. The result is how many bytes came back. */
static size_t send_junk(int line)
{
    static const uint8_t usual[] = {0x01, '0', 'A', '*', '0', 'C', 'E', '0', '6', 'A', 0x02, 0x03, 0x0D};
    uint8_t bytes[1000];
    size_t back = 0;

    for (size_t sent = 0; sent < RANDOM_BYTES; sent += sizeof bytes) {
        for (size_t i = 0; i < sizeof bytes; i++)
            bytes[i] = random_below(2) ? (uint8_t)random_number() : usual[random_below(sizeof usual)];
        send_bytes(line, bytes, sizeof bytes);
        back += drain(line);
    }
    return back;
}

static struct packet damaged_packet(void)
{
    static const struct {
        int type;
        const char *text;
    } good[] = {{'E', "00100001"},     {'E', "F0010001"}, {'C', "0010"},     {'A', "C203D60004"},
                {'A', "F01141424344"}, {'A', "01D6"},     {'A', "C2150001"}, {'A', "C222020700171E111F060000000000000000"}};
    size_t which = random_below(COUNT(good));
    struct packet p = packet_of(random_below(3) == 0 ? '*' : 'A', '0', good[which].type, good[which].text);

    p.bytes[random_below((unsigned)p.size)] ^= (uint8_t)(1 + random_below(255));
    return p;
}

static void try_random_bytes(void)
{
    struct child child = START(NULL, "--pty");
    int line = open_device(&child);

    REQUIRE(send_junk(line) == 0, "random bytes got a reply");
    expect_silence(line, 300);
    EXCHANGE(line, 'C', "0010", 'D', backlight_unused);
    for (int i = 0; i < DAMAGED_SLOWLY; i++) {
        struct packet p = damaged_packet();

        send_bytes(line, p.bytes, p.size);
        expect_silence(line, 300);
        EXCHANGE(line, 'C', "0010", 'D', backlight_unused);
    }
    close(line);
    stop_board(&child);
    EXPECT_STORE(unused_store());
}

/* One damaged packet for each connection, whose end is a gap; none gets a reply or changes the store. */
static void try_damaged_packets(void)
{
    struct child child = START(NULL, "--tcp", "0");
    uint8_t byte;

    for (int i = 0; i < DAMAGED; i++) {
        struct packet p = damaged_packet();
        int line = open_connection(&child);

        send_bytes(line, p.bytes, p.size);
        REQUIRE(shutdown(line, SHUT_WR) == 0, "can't end the sending");
        REQUIRE(receive(line, &byte, 1) == 0, "a damaged packet got a reply");
        close(line);
        if (i % 10 == 0) {
            line = open_connection(&child);
            EXCHANGE(line, 'C', "0010", 'D', backlight_unused);
            close(line);
        }
    }
    stop_board(&child);
    EXPECT_STORE(unused_store());
}

static void try_junk(void)
{
    remove_store();
    try_random_bytes();
    try_damaged_packets();
    printf("boardsim: %d random bytes and %d damaged packets, nothing stored and no reply, seed %llX\n", RANDOM_BYTES,
           DAMAGED + DAMAGED_SLOWLY, (unsigned long long)SEED);
}

int main(int argc, char **argv)
{
    static const struct {
        const char *name;
        void (*run)(void);
    } modes[] = {{"behaviour", try_behaviour}, {"kills", try_kills}, {"junk", try_junk}};

    for (size_t i = 0; argc == 4 && i < COUNT(modes); i++) {
        if (strcmp(argv[3], modes[i].name) != 0)
            continue;
        signal(SIGALRM, time_out);
        alarm(TIME_LIMIT_S);
        program = argv[1];
        snprintf(store_path, sizeof store_path, "%s/boardsim_from_outside_%s.store", argv[2], modes[i].name);
        signal(SIGPIPE, SIG_IGN);
        modes[i].run();
        remove_store();
        return 0;
    }
    fprintf(stderr, "usage: boardsim_from_outside PROGRAM FOLDER behaviour|kills|junk\n");
    return 2;
}
