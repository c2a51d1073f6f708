/*
 * bench: talks to a display's control board over a serial line or TCP, or to a simulated board inside this process.
 *
 * The requests and replies are those of station.h, whose functions are proved. Nothing else here is: it passes bytes, waits, and
 * tells.
 */
#include "command.h"
#include "common/standard_files.h"
#include "decode.h"
#include "erase.h"
#include "options.h"
#include "show.h"
#include "talk.h"
#include "verdict.h"

#include <signal.h>
#include <stdio.h>
#include <string.h>

/* Whether the port and the store that are named go together. */
static enum status check_port(const struct options *options)
{
    if (options->port == NULL || options->port[0] == '\0')
        return say_usage("name the board's port: -p /dev/ttyUSB0 or -p tcp:HOST; or -p sim for a simulated board inside bench",
                         "%s", options->port == NULL ? "no port is named" : "the port's name is empty");
    if (options->store != NULL && strcmp(options->port, PORT_SIMULATED) != 0)
        return say_usage("leave --store out, or name the port sim", "--store is for the simulated board inside bench, -p sim");
    if (options->store != NULL && options->store[0] == '\0')
        return say_usage("name a file; where there is none, an unused store is made", "the store's name is empty");
    return STATUS_DONE;
}

static bool is_erase(const struct options *options)
{
    return strcmp(options->words[0], "erase") == 0;
}

/* Runs a command that talks to a board. */
static enum status run_with_board(const struct options *options)
{
    struct bench bench = {.options = *options};
    struct request request;
    enum status status = STATUS_DONE;

    if (is_erase(options) && options->count > 1)
        return say_usage("type: bench -p PORT -i ID erase", "erase takes nothing behind it");
    if (!is_erase(options))
        status = command_request(options->words, options->count, &request);
    if (status == STATUS_DONE)
        status = check_port(options);
    if (status != STATUS_DONE)
        return status;
    status = talk_open(&bench);
    if (status != STATUS_DONE)
        return is_erase(options) && status != STATUS_USAGE ? verdict_tell_unopened(&bench) : status;
    request.dest = options->dest;
    status = is_erase(options) ? erase_run(&bench) : talk_run(&bench, &request);
    talk_close(&bench);
    return status;
}

/* Runs a command that the options name. */
static enum status run(const struct options *options)
{
    if (options->help) {
        print_help();
        return STATUS_DONE;
    }
    return strcmp(options->words[0], "decode") == 0 ? decode_run(options) : run_with_board(options);
}

/* Whether all that was printed has found its place; if not, a command that is done is not known to be. */
static enum status check_output(const struct options *options, enum status status)
{
    if ((fflush(stdout) == 0 && ferror(stdout) == 0) || status != STATUS_DONE)
        return status;
    return say_error(!options->help && is_erase(options) ? STATUS_NOT_ERASED : STATUS_NO_REPLY,
                     "not known from here; the command itself was carried out", "make room where the output goes, and run it again",
                     "the result could not be written");
}

int main(int argc, char **argv)
{
    bool has_output = standard_files_hold();
    struct options options;
    enum status status;

    setvbuf(stdout, NULL, _IOLBF, 0); /* in a pipe, too, results and errors come in their order */
    signal(SIGPIPE, SIG_IGN);         /* a closed connection or pipe is told by the write */
    status = options_read(argc, argv, &options);
    if (status == STATUS_DONE && !has_output)
        status = say_usage("leave standard output open, or send it to /dev/null", "standard output is closed");
    if (status == STATUS_DONE)
        status = run(&options);
    if (options.json && (status == STATUS_REFUSED || status == STATUS_USAGE || status == STATUS_NO_REPLY))
        show_error(status); /* an erase has printed its verdict */
    return check_output(&options, status);
}
