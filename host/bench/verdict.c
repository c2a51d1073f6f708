/* What bench says of an erase. */
#define _POSIX_C_SOURCE 200809L

#include "verdict.h"

#include "json.h"

#include <signal.h>
#include <stdio.h>
#include <string.h>
#include <unistd.h>

static enum status status_of(enum verdict_kind kind)
{
    switch (kind) {
    case VERDICT_ERASED:
        return STATUS_DONE;
    case VERDICT_CONTRADICTED:
        return STATUS_CONTRADICTED;
    default:
        return STATUS_NOT_ERASED;
    }
}

/* The verdict in words. */
static const char *words_of(enum verdict_kind kind)
{
    switch (kind) {
    case VERDICT_ERASED:
        return "erased";
    case VERDICT_NOT_ERASED:
        return "not erased";
    case VERDICT_NOT_KNOWN:
        return "not known";
    default:
        return "contradicted";
    }
}

/* ---- for programs */

/* Prints the beginning of the object. */
static void print_json_head(const struct bench *bench, enum verdict_kind kind)
{
    if (bench->options.dest == STATION_ALL)
        printf("{\"monitor\":\"all\"");
    else
        printf("{\"monitor\":%u", bench->options.dest);
    print_json_text("verdict", words_of(kind));
    printf(",\"status\":%d", status_of(kind));
    if (talk_is_simulated(bench))
        printf(",\"simulated\":true");
}

static void print_json_item(const char *key, const char *hex_key, const struct reply *item)
{
    printf(",\"%s\":", key);
    print_json_bytes(item->bytes, item->count);
    print_json_hex(hex_key, item->bytes, item->count);
}

static void print_json(const struct bench *bench, const struct verdict *verdict)
{
    print_json_head(bench, verdict->kind);
    printf(",\"requests\":%u", verdict->requests);
    if (verdict->is_met) {
        print_json_item("serial", "serial_hex", &verdict->set.serial);
        print_json_item("model", "model_hex", &verdict->set.model);
    }
    if (verdict->kind != VERDICT_ERASED)
        print_json_error();
    printf("}\n");
}

/* ---- for people */

static void print_erased(const struct bench *bench, const struct verdict *verdict)
{
    struct text set = {.len = 0};

    if (identity_is_empty(&verdict->set))
        text_add(&set, "a set with neither serial number nor model");
    else
        add_identity(&set, &verdict->set);
    if (verdict->set.serial.count == 0)
        text_add(&set, ", so that bench can't tell it from another such set");
    printf("%s: erased: %s; it replied to this erase, and shows what an unused board shows\n", bench->who.chars, set.chars);
}

/* Adds which set it is, and how it stands with its erase. */
static void add_subject(struct text *text, const struct bench *bench, const struct verdict *verdict)
{
    static const char *const stands[] = {[VERDICT_NOT_ERASED] = "is not erased",
                                         [VERDICT_NOT_KNOWN] = "is not known to be erased",
                                         [VERDICT_CONTRADICTED] = "replied to the erase, and what it shows contradicts that"};

    text_add(text, "%s", bench->who.chars);
    if (verdict->is_met) {
        text_add(text, " (");
        add_identity(text, &verdict->set);
        text_add(text, ")");
    }
    text_add(text, " %s: ", stands[verdict->kind]);
}

/* Says any other verdict. */
static void say_verdict(const struct bench *bench, const struct verdict *verdict)
{
    struct text what = {.len = 0};

    if (bench->options.dest != STATION_ALL)
        add_subject(&what, bench, verdict);
    text_add(&what, "%s", verdict->why.chars);
    say_error(status_of(verdict->kind), verdict->left, verdict->todo, "%s", what.chars);
}

enum status verdict_tell(const struct bench *bench, const struct verdict *verdict)
{
    if (verdict->kind != VERDICT_ERASED)
        say_verdict(bench, verdict);
    else if (!bench->options.json)
        print_erased(bench, verdict);
    if (bench->options.json)
        print_json(bench, verdict);
    return status_of(verdict->kind);
}

enum status verdict_tell_unopened(const struct bench *bench)
{
    if (bench->options.json) {
        print_json_head(bench, VERDICT_NOT_ERASED);
        printf(",\"requests\":0");
        print_json_error();
        printf("}\n");
    }
    return STATUS_NOT_ERASED;
}

/* ---- an interruption */

#define INTERRUPTED "interrupted before the verdict"
#define INTERRUPTED_LEFT "not known; a board that took the erase goes on with it"
#define INTERRUPTED_TODO "run the erase again, until bench says erased"

/* The JSON object, where one is asked for: made before, since a signal's handler may not print. */
static char interrupted_json[512];

static void interrupted(int signal)
{
    static const char words[] = "\nbench: " INTERRUPTED ": the set is not known to be erased.\n"
                                "  Left as it was: " INTERRUPTED_LEFT ".\n"
                                "  To do: " INTERRUPTED_TODO ".\n";
    ssize_t written = write(STDERR_FILENO, words, sizeof words - 1);

    written = write(STDOUT_FILENO, interrupted_json, strlen(interrupted_json));
    (void)signal;
    (void)written;
    _exit(STATUS_NOT_ERASED);
}

/* Leaves a signal alone that whoever started bench wants to be ignored, as nohup does. */
static void catch_signal(int signal)
{
    struct sigaction action = {.sa_handler = interrupted}, before;

    if (sigaction(signal, NULL, &before) == 0 && before.sa_handler != SIG_IGN)
        sigaction(signal, &action, NULL);
}

void verdict_on_interruption(const struct bench *bench)
{

    char monitor[8] = "\"all\"";

    if (bench->options.dest != STATION_ALL)
        snprintf(monitor, sizeof monitor, "%u", bench->options.dest);
    if (bench->options.json)
        snprintf(interrupted_json, sizeof interrupted_json,
                 "{\"monitor\":%s,\"verdict\":\"%s\",\"status\":%d%s,\"error\":\"%s\",\"left\":\"%s\",\"todo\":\"%s\"}\n", monitor,
                 words_of(VERDICT_NOT_KNOWN), STATUS_NOT_ERASED, talk_is_simulated(bench) ? ",\"simulated\":true" : "", INTERRUPTED,
                 INTERRUPTED_LEFT, INTERRUPTED_TODO);
    catch_signal(SIGINT);
    catch_signal(SIGTERM);
    catch_signal(SIGHUP);
}
