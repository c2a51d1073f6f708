/* Requests and replies over a port; station_reply_size tells where a reply ends. */
#include "line.h"

#include "deadline.h"
#include "say.h"

#include <string.h>

enum {
    SOH = 0x01,
    REST_MS = 120,   /* a board forgets half a packet after 100 ms of silence */
    NOISE_MS = 1000, /* a line that never rests is spoken to after this */
    SEND_MS = 2000   /* the time that sending a packet may take */
};

/* ---- what comes */

/* Bytes that no packet begins with. */
struct stray {
    uint8_t bytes[16];
    size_t count;
};

/* Shows the stray bytes that were kept. */
static void flush_stray(const struct line *line, struct stray *stray)
{
    if (line->verbose && stray->count > 0)
        say_bytes("<-", stray->bytes, stray->count, "stray, skipped");
    stray->count = 0;
}

static void keep_stray(const struct line *line, struct stray *stray, uint8_t b)
{
    if (stray->count == sizeof stray->bytes)
        flush_stray(line, stray);
    stray->bytes[stray->count++] = b;
}

/* Takes a byte as port_byte does, and tells each second that passes. */
static enum heard patient_byte(struct line *line, uint8_t *b, long long until)
{
    for (;;) {
        long long passed = (now_ms() - line->since) / 1000, next = line->since + (passed + 1) * 1000;
        bool ticks = line->each_second != NULL && line->port.inside == NULL && next < until;
        enum heard heard = port_byte(&line->port, b, ticks ? next : until);

        if (heard != HEARD_NOTHING || !ticks)
            return heard;
        line->each_second((long)passed + 1, line->about);
    }
}

/*
 * Receives one packet: skips what does not begin with 01h, then takes as many bytes as the length digits say. Where they are bad,
 * the packet is what comes until the line rests. A packet that is not whole at `until` may go on until the line rests, and stays as
 * it is then; its length is 0 where none came. HEARD_BYTE with no packet says that other bytes still came at `until`. `rests` ends
 * the wait, and a packet, as soon as the line rests.
 */
static enum heard receive(struct line *line, struct packet *packet, bool rests, long long until)
{
    struct stray stray = {.count = 0};
    enum heard heard;
    uint8_t b;

    packet->len = 0;
    for (;;) {
        bool is_bad = packet->len >= STATION_HEADER_BYTES && station_reply_size(packet->bytes, packet->len) == 0;
        long long rested = now_ms() + REST_MS;

        heard = patient_byte(line, &b, is_bad || rests || (packet->len > 0 && until < rested) ? rested : until);
        if (heard != HEARD_BYTE)
            break;
        if (packet->len == 0 && b != SOH) {
            keep_stray(line, &stray, b);
            if (now_ms() < until)
                continue;
            break;
        }
        flush_stray(line, &stray);
        packet->bytes[packet->len++] = b;
        if (packet->len == sizeof packet->bytes || packet->len == station_reply_size(packet->bytes, packet->len))
            break;
    }
    flush_stray(line, &stray);
    return heard;
}

enum came line_hear(struct line *line, struct packet *packet, long long until)
{
    enum heard heard = receive(line, packet, false, until);

    if (packet->len > 0)
        return CAME_PACKET;
    return heard == HEARD_END ? CAME_END : CAME_NOTHING;
}

enum came line_rest(struct line *line, struct packet *packet, long long until)
{
    enum heard heard = receive(line, packet, true, until);

    if (packet->len > 0)
        return CAME_PACKET;
    if (heard != HEARD_NOTHING)
        return heard == HEARD_END ? CAME_END : CAME_NOTHING;
    port_tell_gap(&line->port);
    return CAME_SILENCE;
}

/* ---- what goes */

/* Waits until nothing has come for a while, and drops what comes: it answers nothing that is still to be asked. */
static void rest(struct line *line)
{
    long long latest = now_ms() + NOISE_MS;
    struct stray stray = {.count = 0};
    uint8_t b;

    port_tell_gap(&line->port);
    while (now_ms() < latest && port_byte(&line->port, &b, now_ms() + REST_MS) == HEARD_BYTE)
        keep_stray(line, &stray, b);
    flush_stray(line, &stray);
    line->is_rested = true;
}

bool line_send(struct line *line, const struct packet *packet)
{
    if (line->verbose)
        say_bytes("->", packet->bytes, packet->len, NULL);
    return port_send(&line->port, packet->bytes, packet->len, now_ms() + SEND_MS);
}

/* Sends a request on a line that rests. */
static bool send_rested(struct line *line, const struct packet *packet)
{
    if (!line->is_rested)
        rest(line);
    return line_send(line, packet);
}

bool line_tell(struct line *line, const struct packet *packet)
{
    bool sent = send_rested(line, packet);

    rest(line); /* the bytes leave before the port is closed */
    return sent;
}

/* ---- a request and its reply */

/*
 * Receives packets until one answers the request or is damaged, or the time is over. `rests`: until one answers it, the line rests,
 * or the time is over.
 */
static enum ending await(struct line *line, const struct request *request, bool rests, long long until, struct exchange *exchange)
{
    enum ending ending = ENDED_SILENT;

    for (;;) {
        struct packet packet;
        enum came came = rests ? line_rest(line, &packet, until) : line_hear(line, &packet, until);
        bool is_good;

        if (came != CAME_PACKET)
            return came == CAME_END ? ENDED_CLOSED : ending;
        exchange->packet = packet;
        is_good = reply_read(&exchange->reply, packet.bytes, packet.len);
        if (is_good && !request_is_answered(request, &exchange->reply))
            ending = ENDED_OTHER;
        else
            ending = is_good ? ENDED_ANSWERED : ENDED_DAMAGED;
        if (line->verbose)
            say_bytes("<-", packet.bytes, packet.len, ending == ENDED_OTHER ? "answers another request, skipped" : NULL);
        if (ending == ENDED_ANSWERED || (ending == ENDED_DAMAGED && !rests) || now_ms() >= until)
            return ending;
    }
}

void line_exchange(struct line *line, const struct request *request, const struct packet *packet, long long limit_ms,
                   struct exchange *exchange)
{
    memset(exchange, 0, sizeof *exchange);
    exchange->ending = ENDED_UNSENT;
    if (send_rested(line, packet))
        exchange->ending = await(line, request, false, now_ms() + limit_ms, exchange);
    line->is_rested = exchange->ending == ENDED_ANSWERED;
}

/* Whether asking again is of no use. */
static bool is_over(const struct exchange *exchange)
{
    return exchange->ending == ENDED_ANSWERED || exchange->ending == ENDED_CLOSED || exchange->ending == ENDED_UNSENT;
}

void line_read(struct line *line, const struct request *request, const struct packet *packet, long long try_ms, long long limit_ms,
               struct exchange *exchange)
{
    long long until = now_ms() + limit_ms;

    line_exchange(line, request, packet, try_ms, exchange);
    while (!is_over(exchange) && now_ms() < until && line->port.inside == NULL) {
        exchange->ending = await(line, request, true, until, exchange);
        if (is_over(exchange))
            break;
        exchange->ending = line_send(line, packet) ? await(line, request, false, now_ms() + try_ms, exchange) : ENDED_UNSENT;
    }
    line->is_rested = exchange->ending == ENDED_ANSWERED;
}
