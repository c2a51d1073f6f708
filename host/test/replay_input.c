// Runs a program on an input that fails: a pseudo-terminal's master gives what was written to its other end, and on Linux a read of it fails
// once that end is closed.
//   replay_input TEXT PROGRAM
#define _XOPEN_SOURCE 600
#include <fcntl.h>
#include <stdio.h>
#include <stdlib.h>
#include <string.h>
#include <termios.h>
#include <unistd.h>

static void need(int good, const char *what) {
    if (!good) {
        perror(what);
        exit(1);
    }
}

int main(int argc, char **argv) {
    if (argc != 3) {
        fprintf(stderr, "replay_input TEXT PROGRAM\n");
        return 2;
    }
    int master = posix_openpt(O_RDWR | O_NOCTTY);
    need(master >= 0 && grantpt(master) == 0 && unlockpt(master) == 0, "pseudo-terminal");
    int slave = open(ptsname(master), O_RDWR | O_NOCTTY);
    struct termios raw;
    need(slave >= 0 && tcgetattr(slave, &raw) == 0, "its other end");
    raw.c_oflag &= ~(tcflag_t)OPOST;
    need(tcsetattr(slave, TCSANOW, &raw) == 0, "bytes as they are");
    size_t count = strlen(argv[1]);
    need(write(slave, argv[1], count) == (ssize_t)count && close(slave) == 0, "writing");
    need(dup2(master, STDIN_FILENO) == STDIN_FILENO && close(master) == 0, "standard input");
    execl(argv[2], argv[2], (char *)NULL);
    need(0, argv[2]);
    return 1;
}
