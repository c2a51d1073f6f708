/* The command line of boardsim. */
#define _GNU_SOURCE /* getopt_long */

#include "options.h"

#include "board.h"
#include "end.h"

#include <errno.h>
#include <getopt.h>
#include <stdio.h>
#include <stdlib.h>
#include <string.h>

enum { USUAL_IDLE_MS = 60000 };

static const char help[] =
    "usage: boardsim --store FILE --id N --serial TEXT --model TEXT (--pty | --tcp PORT)\n"
    "                [--listen ADDRESS] [--idle-ms N] [--step-ms N] [-v]\n"
    "\n"
    "A simulated board. It can be killed at any moment, also in an erase, and started again.\n"
    "\n"
    "  --store FILE      the board's 128 stored bytes; an unused store is made where there is no such file, and one\n"
    "                    that is older than the programs gets unused ones\n"
    "  --id N            the monitor ID, 1 to 8\n"
    "  --serial TEXT     the serial number, 0 to 16 bytes\n"
    "  --model TEXT      the model, 0 to 16 bytes\n"
    "  --pty             talk on a pseudo-terminal; its name is printed on a line\n"
    "  --tcp PORT        talk on a TCP port, to one client at a time; the port is printed on a line; 0: any free port\n"
    "  --listen ADDRESS  with --tcp: the address to listen on instead of 127.0.0.1; nobody is asked for a password\n"
    "  --idle-ms N       with --tcp: milliseconds after which a client that moves no byte has to go, 1 to 3600000;\n"
    "                    default 60000\n"
    "  --step-ms N       milliseconds before each erase step, 0 to 60000; default 0, as fast as it can\n"
    "  -v                a line on standard error for each answer other than waiting and more\n"
    "  --help            this text\n"
    "\n"
    "SIGTERM or SIGINT ends it. Exit status: 0 done, 1 the board refused its store or another program changed it,\n"
    "2 usage, 3 the system refused something.\n";

static long number_in(const char *option, const char *text, long first, long last)
{
    char *end;
    long number;

    errno = 0;
    number = strtol(text, &end, 10);
    if (errno != 0 || end == text || *end != '\0' || number < first || number > last)
        end_with(STATUS_USAGE, "--%s takes a number from %ld to %ld, not '%s'", option, first, last, text);
    return number;
}

static const char *text_in(const char *option, const char *text)
{
    if (strlen(text) > BOARD_TEXT_MAX)
        end_with(STATUS_USAGE, "--%s takes at most %d bytes, and '%s' has %zu", option, BOARD_TEXT_MAX, text, strlen(text));
    return text;
}

static void take_option(struct options *options, int option)
{
    switch (option) {
    case 's':
        options->store = optarg;
        break;
    case 'i':
        options->id = (uint8_t)number_in("id", optarg, 1, 8);
        break;
    case 'n':
        options->serial = text_in("serial", optarg);
        break;
    case 'm':
        options->model = text_in("model", optarg);
        break;
    case 'p':
        options->pty = true;
        break;
    case 't':
        number_in("tcp", optarg, 0, 65535);
        options->port = optarg;
        break;
    case 'l':
        options->address = optarg;
        break;
    case 'o':
        options->idle_ms = (int)number_in("idle-ms", optarg, 1, 3600000);
        break;
    case 'w':
        options->step_ms = (int)number_in("step-ms", optarg, 0, 60000);
        break;
    case 'v':
        options->verbose = true;
        break;
    case 'h':
        fputs(help, stdout);
        exit(STATUS_DONE);
    }
}

static void check_options(const struct options *options)
{
    if (options->store == NULL || options->id == 0 || options->serial == NULL || options->model == NULL)
        end_with(STATUS_USAGE, "--store, --id, --serial and --model are needed");
    if (options->pty == (options->port != NULL))
        end_with(STATUS_USAGE, "one of --pty and --tcp is needed");
    if (options->store[0] == '\0')
        end_with(STATUS_USAGE, "--store takes the name of a file, and this one is empty");
    if ((options->address != NULL || options->idle_ms != 0) && options->port == NULL)
        end_with(STATUS_USAGE, "--listen and --idle-ms go with --tcp");
}

struct options options_in(int argc, char **argv)
{
    static const struct option known[] = {
        {"store", required_argument, NULL, 's'},
        {"id", required_argument, NULL, 'i'},
        {"serial", required_argument, NULL, 'n'},
        {"model", required_argument, NULL, 'm'},
        {"pty", no_argument, NULL, 'p'},
        {"tcp", required_argument, NULL, 't'},
        {"listen", required_argument, NULL, 'l'},
        {"idle-ms", required_argument, NULL, 'o'},
        {"step-ms", required_argument, NULL, 'w'},
        {"help", no_argument, NULL, 'h'},
        {NULL, 0, NULL, 0},
    };
    struct options options = {0};
    int option;

    opterr = 0;
    while ((option = getopt_long(argc, argv, "v", known, NULL)) != -1) {
        if (option == '?')
            end_with(STATUS_USAGE, "'%s' is no option, or its value is missing", argv[optind - 1]);
        take_option(&options, option);
    }
    if (optind < argc)
        end_with(STATUS_USAGE, "'%s' is not an option", argv[optind]);
    check_options(&options);
    if (options.idle_ms == 0)
        options.idle_ms = USUAL_IDLE_MS;
    return options;
}
