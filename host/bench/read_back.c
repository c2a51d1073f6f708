/* What a board shows after its erase, beside what an unused board shows. */
#include "read_back.h"

#include "show.h"
#include "unused.h"
#include "words.h"

#include <stdio.h>

/* A read, and what it reads in words. */
struct reading {
    const char *name;
    struct request request;
};

/* Adds a part to a list in words. */
static void add_part(struct text *list, const struct text *part)
{
    text_add(list, "%s%s", list->len > 0 ? "; " : "", part->chars);
}

/* Prints what came, and whether it is what an unused board shows. */
static void print_read(const struct bench *bench, const struct exchange *exchange, const struct text *shown, bool is_unused)
{
    unsigned remarks = REMARK_READ_BACK | (is_unused ? REMARK_UNUSED : 0u) | (talk_is_simulated(bench) ? REMARK_SIMULATED : 0u);

    if (bench->options.json)
        show_json(&exchange->reply, exchange->packet.bytes, exchange->packet.len, remarks);
    else
        printf("read back: %s\n", shown->chars);
}

/* Adds what differs. */
static void add_difference(struct read_back *found, const struct reading *reading, struct text *shown, const struct reply *unused)
{
    bool is_identity = reading->request.kind == STATION_REPLY_SERIAL || reading->request.kind == STATION_REPLY_MODEL;

    found->is_other_set = found->is_other_set || is_identity;
    text_add(shown, " (%s: ", is_identity ? "the set to erase" : "an unused board");
    add_sentence(shown, unused);
    text_add(shown, ")");
    add_part(&found->differs, shown);
}

/* Compares one read; says whether the board answered it. */
static bool compare(struct bench *bench, const struct identity *set, const struct reading *reading, struct read_back *found)
{
    struct text shown = {.len = 0};
    struct exchange exchange;
    struct reply unused = {.kind = 0};
    bool is_unused;

    talk_read(bench, &reading->request, &exchange);
    if (exchange.ending != ENDED_ANSWERED) {
        text_add(&shown, "%s: ", reading->name);
        talk_add_failure(&shown, bench, &exchange, talk_read_limit(bench));
        add_part(&found->unproved, &shown);
        found->is_closed = exchange.ending == ENDED_CLOSED || exchange.ending == ENDED_UNSENT;
        return false;
    }
    is_unused = unused_reply(set, &reading->request, &unused) && reply_is(&exchange.reply, &unused);
    if (reply_is_refusal(&exchange.reply))
        text_add(&shown, "%s: not served", reading->name);
    else
        add_sentence(&shown, &exchange.reply);
    print_read(bench, &exchange, &shown, is_unused);
    if (reply_is_refusal(&exchange.reply))
        add_part(&found->unproved, &shown);
    else if (!is_unused)
        add_difference(found, reading, &shown, &unused);
    return true;
}

/* Compares the programs, as long as the board answers. */
static void compare_programs(struct bench *bench, const struct identity *set, struct read_back *found)
{
    bool goes_on = true;

    for (unsigned number = 0; goes_on && number < PROGRAMS; number++) {
        char name[16];
        const struct reading reading = {.name = name,
                                        .request = {.kind = STATION_REPLY_SCHEDULE_READ,
                                                    .dest = bench->options.dest,
                                                    .program = {[PROGRAM_NUMBER] = (uint8_t)number}}};

        snprintf(name, sizeof name, "program %u", number);
        goes_on = compare(bench, set, &reading, found);
    }
}

void read_back_all(struct bench *bench, const struct identity *set, struct read_back *found)
{
    static const struct reading kinds[] = {
        {"serial number", {.kind = STATION_REPLY_SERIAL}},
        {"model", {.kind = STATION_REPLY_MODEL}},
        {"tag", {.kind = STATION_REPLY_TAG}},
        {"former tag", {.kind = STATION_REPLY_FORMER_TAG}},
        {"power", {.kind = STATION_REPLY_POWER_READ}},
        {"date", {.kind = STATION_REPLY_DATE_READ}},
    };
    bool goes_on = true;

    for (size_t i = 0; goes_on && i < sizeof kinds / sizeof kinds[0]; i++) {
        struct reading reading = kinds[i];

        reading.request.dest = bench->options.dest;
        goes_on = compare(bench, set, &reading, found);
    }
    for (size_t i = 0; goes_on && i < SETTINGS; i++) {
        struct reading reading = {
            .name = settings[i].name,
            .request = {
                .kind = STATION_REPLY_GET, .dest = bench->options.dest, .page = settings[i].page, .code = settings[i].code}};

        goes_on = compare(bench, set, &reading, found);
    }
    if (goes_on)
        compare_programs(bench, set, found);
}
