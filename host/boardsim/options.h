/* The command line of boardsim. */
#ifndef OPTIONS_H
#define OPTIONS_H

#include <stdbool.h>
#include <stdint.h>

struct options {
    const char *store, *serial, *model, *port, *address;
    bool pty, verbose;
    uint8_t id;
    int step_ms, idle_ms;
};

/* The options on the command line; wrong ones end the program, and so does --help. */
struct options options_in(int argc, char **argv);

#endif
