/*
 * A peer for tests: listens on a TCP port of its own, prints the port's number, takes one client and answers each request with the
 * bytes that an argument says, whatever they are.
 *
 *   bench_peer ANSWER...
 *
 * ANSWER is hexadecimal digits; '-' is no answer; 'close' closes the connection; 'babble' sends 00h without end. MS:ANSWER waits so
 * many milliseconds first; !ANSWER waits for no request. A request is what comes until 50 ms of silence. The peer ends when the
 * client does, or after 60 s.
 */
#define _DEFAULT_SOURCE

#include <arpa/inet.h>
#include <netinet/in.h>
#include <poll.h>
#include <signal.h>
#include <stdbool.h>
#include <stdint.h>
#include <stdio.h>
#include <stdlib.h>
#include <string.h>
#include <sys/socket.h>
#include <time.h>
#include <unistd.h>

static void fail(const char *doing)
{
    perror(doing);
    exit(1);
}

/* Listens on a free port of this computer, and prints it. */
static int open_listener(void)
{
    struct sockaddr_in address = {.sin_family = AF_INET, .sin_addr.s_addr = htonl(INADDR_LOOPBACK)};
    socklen_t len = sizeof address;
    int listener = socket(AF_INET, SOCK_STREAM, 0);

    if (listener < 0 || bind(listener, (struct sockaddr *)&address, len) != 0 || listen(listener, 1) != 0)
        fail("listen");
    if (getsockname(listener, (struct sockaddr *)&address, &len) != 0)
        fail("getsockname");
    printf("%d\n", ntohs(address.sin_port));
    fflush(stdout);
    return listener;
}

/* Takes one request; says whether the client is still there. */
static bool take_request(int client)
{
    struct pollfd wait = {.fd = client, .events = POLLIN};
    int timeout = -1;
    char bytes[256];

    while (poll(&wait, 1, timeout) > 0) {
        if (read(client, bytes, sizeof bytes) <= 0)
            return false;
        timeout = 50;
    }
    return true;
}

static void pause_ms(long ms)
{
    struct timespec time = {.tv_sec = ms / 1000, .tv_nsec = ms % 1000 * 1000000};

    nanosleep(&time, NULL);
}

static void send_hex(int client, const char *hex)
{
    uint8_t bytes[256];
    size_t count = 0;
    unsigned byte;

    for (; count < sizeof bytes && sscanf(hex, "%2x", &byte) == 1; hex += 2)
        bytes[count++] = (uint8_t)byte;
    if (write(client, bytes, count) != (ssize_t)count)
        fail("write");
}

/* Gives one answer; says whether to go on. */
static bool answer(int client, const char *text)
{
    const char *colon = strchr(text, ':');

    if (colon != NULL) {
        pause_ms(strtol(text, NULL, 10));
        text = colon + 1;
    }
    if (strcmp(text, "close") == 0)
        return false;
    if (strcmp(text, "babble") == 0) {
        static const char zeros[4096];

        while (write(client, zeros, sizeof zeros) > 0)
            continue;
        return false;
    }
    if (strcmp(text, "-") != 0)
        send_hex(client, text);
    return true;
}

int main(int argc, char **argv)
{
    int listener = open_listener(), client;

    alarm(60);
    signal(SIGPIPE, SIG_IGN);
    client = accept(listener, NULL, NULL);
    if (client < 0)
        fail("accept");
    for (int i = 1; i < argc; i++) {
        bool waits = argv[i][0] != '!';

        if ((waits && !take_request(client)) || !answer(client, waits ? argv[i] : argv[i] + 1))
            return 0;
    }
    while (take_request(client))
        continue;
    return 0;
}
