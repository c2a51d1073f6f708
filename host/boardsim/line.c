/* The line that boardsim talks on. */
#define _GNU_SOURCE /* posix_openpt, cfmakeraw */

#include "line.h"

#include "end.h"

#include <errno.h>
#include <fcntl.h>
#include <netdb.h>
#include <stdio.h>
#include <stdlib.h>
#include <string.h>
#include <sys/socket.h>
#include <termios.h>
#include <unistd.h>

void make_nonblocking(int file, const char *name)
{
    int flags = fcntl(file, F_GETFL);

    if (flags < 0 || fcntl(file, F_SETFL, flags | O_NONBLOCK) < 0)
        end_system("can't set up", name);
}

static void print_line(const char *text)
{
    if (puts(text) == EOF || fflush(stdout) != 0)
        end_system("can't print", text);
}

/* Our own hold on the other end keeps the pseudo-terminal alive between clients. */
int open_pty(void)
{
    int line = posix_openpt(O_RDWR | O_NOCTTY | O_CLOEXEC), other_end;
    struct termios raw;
    const char *name;

    if (line < 0 || grantpt(line) != 0 || unlockpt(line) != 0)
        end_system("can't open", "a pseudo-terminal");
    name = ptsname(line);
    if (name == NULL)
        end_system("can't tell the name of", "the pseudo-terminal");
    other_end = open(name, O_RDWR | O_NOCTTY | O_CLOEXEC);
    if (other_end < 0 || tcgetattr(other_end, &raw) != 0)
        end_system("can't open", name);
    cfmakeraw(&raw);
    if (tcsetattr(other_end, TCSANOW, &raw) != 0)
        end_system("can't set up", name);
    make_nonblocking(line, name);
    print_line(name);
    return line;
}

static void print_port(int listener)
{
    struct sockaddr_storage address;
    socklen_t length = sizeof address;
    char port[32];
    int wrong;

    if (getsockname(listener, (struct sockaddr *)&address, &length) != 0)
        end_system("can't tell the number of", "the port");
    wrong = getnameinfo((struct sockaddr *)&address, length, NULL, 0, port, sizeof port, NI_NUMERICSERV);
    if (wrong != 0)
        end_with(STATUS_SYSTEM, "can't tell the number of the port: %s", gai_strerror(wrong));
    print_line(port);
}

int open_listener(const char *address, const char *port)
{
    struct addrinfo wanted = {.ai_socktype = SOCK_STREAM, .ai_flags = AI_NUMERICSERV}, *found;
    int wrong = getaddrinfo(address, port, &wanted, &found), listener, on = 1;

    if (wrong != 0)
        end_with(STATUS_SYSTEM, "can't listen on %s: %s", address, gai_strerror(wrong));
    listener = socket(found->ai_family, SOCK_STREAM | SOCK_CLOEXEC, 0);
    if (listener < 0 || setsockopt(listener, SOL_SOCKET, SO_REUSEADDR, &on, sizeof on) != 0)
        end_system("can't make a socket for", address);
    if (bind(listener, found->ai_addr, found->ai_addrlen) != 0 || listen(listener, 8) != 0)
        end_with(STATUS_SYSTEM, "can't listen on %s port %s: %s", address, port, strerror(errno));
    freeaddrinfo(found);
    make_nonblocking(listener, "the listening socket");
    print_port(listener);
    return listener;
}
