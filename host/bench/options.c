/* The options of bench. */
#include "options.h"

#include "station.h"

#include <getopt.h>
#include <stdlib.h>
#include <string.h>

static enum status take_id(const char *text, uint16_t *dest)
{
    if (strcmp(text, "all") == 0)
        *dest = STATION_ALL;
    else if (text[0] >= '1' && text[0] <= '8' && text[1] == '\0')
        *dest = (uint16_t)(text[0] - '0');
    else
        return say_usage("give -i 1 to -i 8, or -i all", "-i takes a monitor ID from 1 to 8 or all, not '%s'", text);
    return STATUS_DONE;
}

static enum status take_limit(const char *text, long long *limit_ms)
{
    char *end;
    double seconds = strtod(text, &end);

    if (end == text || *end != '\0' || !(seconds >= 0.1 && seconds <= 600))
        return say_usage("give for example -t 5", "-t takes seconds from 0.1 to 600, not '%s'", text);
    *limit_ms = (long long)(seconds * 1000 + 0.5);
    return STATUS_DONE;
}

static enum status take_option(struct options *options, int option, const char *word)
{
    switch (option) {
    case 'p':
        options->port = optarg;
        return STATUS_DONE;
    case 's':
        options->store = optarg;
        return STATUS_DONE;
    case 'i':
        return take_id(optarg, &options->dest);
    case 't':
        return take_limit(optarg, &options->limit_ms);
    case 'j':
        options->json = true;
        return STATUS_DONE;
    case 'v':
        options->verbose = true;
        return STATUS_DONE;
    case 'y':
        options->yes = true;
        return STATUS_DONE;
    case 'h':
        options->help = true;
        return STATUS_DONE;
    case ':':
        return say_usage("give the option its value", "the option '%s' lacks its value", word);
    default:
        return say_usage("put a word that begins with '-' behind --, as in: bench tag write -- -7-", "there is no option '%s'",
                         word);
    }
}

enum status options_read(int argc, char **argv, struct options *options)
{
    static const struct option known[] = {
        {"port", required_argument, NULL, 'p'},  {"id", required_argument, NULL, 'i'}, {"time", required_argument, NULL, 't'},
        {"store", required_argument, NULL, 's'}, {"json", no_argument, NULL, 'j'},     {"verbose", no_argument, NULL, 'v'},
        {"yes", no_argument, NULL, 'y'},         {"help", no_argument, NULL, 'h'},     {NULL, 0, NULL, 0},
    };
    char letter[] = "-?";
    enum status status = STATUS_DONE;
    int option;

    *options = (struct options){.dest = 1};
    opterr = 0;
    while (status == STATUS_DONE && (option = getopt_long(argc, argv, ":p:i:t:vh", known, NULL)) != -1) {
        letter[1] = (char)optopt;
        status = take_option(options, option, strncmp(argv[optind - 1], "--", 2) == 0 ? argv[optind - 1] : letter);
    }
    options->words = argv + optind;
    options->count = argc - optind;
    if (status == STATUS_DONE && !options->help && options->count == 0)
        status = say_usage("type for example: bench -p /dev/ttyUSB0 -i 1 serial", "a command is missing");
    for (int i = 1; status != STATUS_DONE && i < argc; i++)
        options->json = options->json || strcmp(argv[i], "--json") == 0; /* what is wrong may stand in front of it */
    return status;
}
