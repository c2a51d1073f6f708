/* A reply as station.h's reader gives it, beside the bytes it came as. */
#ifndef REPLY_H
#define REPLY_H

#include "station.h"

#include <stdbool.h>
#include <stddef.h>
#include <stdint.h>

struct packet {
    uint8_t bytes[STATION_REPLY_MOST];
    size_t len;
};

struct reply {
    uint8_t kind; /* a station_reply; or, where the packet is no good reply, a station_refusal */
    uint16_t numbers[STATION_NUMBERS_ROOM];
    uint8_t bytes[STATION_BYTES_ROOM];
    size_t count;
};

/* Reads a packet of any length; says whether it is a good reply. */
bool reply_read(struct reply *reply, const uint8_t *packet, size_t len);

/* The sender's monitor ID. */
unsigned reply_sender(const struct reply *reply);

/* Whether two replies say the same. */
bool reply_is(const struct reply *one, const struct reply *other);

/* Whether the board says that it refused: result or status 01, or the NULL message. */
bool reply_is_refusal(const struct reply *reply);

/* What a refusal of station.h means, in words. */
const char *refusal_meaning(uint8_t refusal);

#endif
