/* A TCP connection to a board. */
#define _POSIX_C_SOURCE 200809L

#include "deadline.h"
#include "port.h"
#include "say.h"

#include <errno.h>
#include <fcntl.h>
#include <netdb.h>
#include <netinet/in.h>
#include <netinet/tcp.h>
#include <poll.h>
#include <stdio.h>
#include <string.h>
#include <sys/socket.h>
#include <unistd.h>

static const char nothing_sent[] = "everything; nothing was sent";
static const char check_network[] = "check that the board is on, its network cable, and the address: tcp:HOST or tcp:HOST:PORT";

/* The board's port, where none is named. */
static const char usual_port[] = "7142";

struct address {
    char host[256];
    char port[8];
};

/* Whether a text is a port's number, 1 to 65535 in decimal digits. A longer number would be cut to one that nobody meant. */
static bool is_port(const char *text)
{
    unsigned number = 0;

    for (const char *c = text; *c != '\0'; c++) {
        if (*c < '0' || *c > '9' || number > 65535)
            return false;
        number = number * 10 + (unsigned)(*c - '0');
    }
    return number >= 1 && number <= 65535;
}

/* Takes "HOST", "HOST:PORT", "[HOST]" or "[HOST]:PORT" apart; the brackets are for hosts with colons. */
static bool take_apart(const char *text, struct address *address)
{
    const char *begin = text[0] == '[' ? text + 1 : text;
    const char *end = text[0] == '[' ? strchr(text, ']') : strrchr(text, ':');
    const char *rest;
    size_t len;

    if (text[0] == '[' && end == NULL)
        return false;
    if (end == NULL)
        end = text + strlen(text);
    rest = text[0] == '[' ? end + 1 : end;
    len = (size_t)(end - begin);
    if (len == 0 || len >= sizeof address->host)
        return false;
    memcpy(address->host, begin, len);
    address->host[len] = '\0';
    if (*rest == '\0')
        rest = NULL;
    else if (*rest++ != ':' || !is_port(rest) || strlen(rest) >= sizeof address->port)
        return false;
    snprintf(address->port, sizeof address->port, "%s", rest != NULL ? rest : usual_port);
    return true;
}

/* Connects to one of the addresses of a host, at most until a moment. */
static int connect_to(const struct addrinfo *to, long long until)
{
    int fd = socket(to->ai_family, to->ai_socktype, to->ai_protocol), wrong = 0, on = 1;
    socklen_t len = sizeof wrong;

    if (fd < 0)
        return -1;
    if (fcntl(fd, F_SETFL, O_NONBLOCK) != 0 || fcntl(fd, F_SETFD, FD_CLOEXEC) != 0)
        wrong = errno;
    else if (connect(fd, to->ai_addr, to->ai_addrlen) != 0 && errno != EINPROGRESS)
        wrong = errno;
    else if (!wait_ready(fd, POLLOUT, until))
        wrong = ETIMEDOUT;
    else if (getsockopt(fd, SOL_SOCKET, SO_ERROR, &wrong, &len) != 0)
        wrong = errno;
    if (wrong == 0) {
        setsockopt(fd, IPPROTO_TCP, TCP_NODELAY, &on, sizeof on); /* a packet waits for no other */
        return fd;
    }
    close(fd);
    errno = wrong;
    return -1;
}

/* The addresses of a host; or what getaddrinfo says. */
static int look_up(const struct address *address, struct addrinfo **found)
{
    const struct addrinfo wanted = {.ai_socktype = SOCK_STREAM, .ai_flags = AI_NUMERICSERV};

    return getaddrinfo(address->host, address->port, &wanted, found);
}

/* Connects to the first address of a host that takes a connection; gives -1 where none does, and errno says why. */
static int connect_to_first(const struct addrinfo *found, long long until)
{
    int fd = -1;

    for (const struct addrinfo *to = found; to != NULL && fd < 0; to = to->ai_next)
        fd = connect_to(to, until);
    return fd;
}

enum status port_open_tcp(const char *host_and_port, long long limit_ms, int *fd)
{
    long long until = now_ms() + limit_ms;
    struct address address;
    struct addrinfo *found;
    int wrong;

    if (!take_apart(host_and_port, &address))
        return say_usage("give tcp:HOST or tcp:HOST:PORT, the port from 1 to 65535; a host with colons stands in brackets",
                         "'tcp:%s' names no host and port", host_and_port);
    wrong = look_up(&address, &found);
    if (wrong != 0)
        return say_error(STATUS_NO_REPLY, nothing_sent, check_network, "'%s' port '%s' can't be looked up: %s", address.host,
                         address.port, gai_strerror(wrong));
    *fd = connect_to_first(found, until);
    wrong = errno;
    freeaddrinfo(found);
    if (*fd < 0)
        return say_error(STATUS_NO_REPLY, nothing_sent, check_network, "no connection to '%s' port %s: %s", address.host,
                         address.port, strerror(wrong));
    return STATUS_DONE;
}

int port_connect(const char *host_and_port, long long until)
{
    struct address address;
    struct addrinfo *found;
    int fd;

    if (!take_apart(host_and_port, &address) || look_up(&address, &found) != 0)
        return -1;
    fd = connect_to_first(found, until);
    freeaddrinfo(found);
    return fd;
}
