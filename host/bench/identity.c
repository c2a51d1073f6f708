/* Which set is at the line. */
#include "identity.h"

/* Reads one of the two. */
static bool read_item(struct bench *bench, uint8_t kind, const char *name, struct reply *item, struct text *why,
                      enum ending *ending)
{
    const struct request request = {.kind = kind, .dest = bench->options.dest};
    struct exchange exchange;

    talk_read(bench, &request, &exchange);
    *item = exchange.reply;
    *ending = exchange.ending;
    if (exchange.ending != ENDED_ANSWERED) {
        text_add(why, "its %s can't be read: ", name);
        talk_add_failure(why, bench, &exchange, talk_read_limit(bench));
        return false;
    }
    if (reply_is_refusal(&exchange.reply)) {
        text_add(why, "it does not tell its %s (NULL message), as our boards do", name);
        return false;
    }
    return true;
}

bool identity_read(struct bench *bench, struct identity *identity, struct text *why, enum ending *ending)
{
    struct reply again;

    if (!read_item(bench, STATION_REPLY_SERIAL, "serial number", &identity->serial, why, ending) ||
        !read_item(bench, STATION_REPLY_MODEL, "model", &identity->model, why, ending) ||
        !read_item(bench, STATION_REPLY_SERIAL, "serial number", &again, why, ending))
        return false;
    if (reply_is(&identity->serial, &again))
        return true;
    text_add(why, "another set came to the line while its serial number and model were read");
    return false;
}

bool identity_is(const struct identity *one, const struct identity *other)
{
    return reply_is(&one->serial, &other->serial) && reply_is(&one->model, &other->model);
}

bool identity_is_empty(const struct identity *identity)
{
    return identity->serial.count == 0 && identity->model.count == 0;
}

static void add_item(struct text *text, const char *name, const struct reply *item)
{
    if (item->count == 0) {
        text_add(text, "no %s", name);
        return;
    }
    text_add(text, "%s ", name);
    text_add_quoted(text, item->bytes, item->count);
}

void add_identity(struct text *text, const struct identity *identity)
{
    add_item(text, "serial number", &identity->serial);
    text_add(text, ", ");
    add_item(text, "model", &identity->model);
}
