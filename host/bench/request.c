/* A request to a board, how it becomes a packet, and which reply answers it. */
#include "request.h"

#include <string.h>

/* The requests that name nothing but a monitor. */
static uint8_t encode_read(const struct request *r, uint8_t *out, size_t room, size_t *size)
{
    switch (r->kind) {
    case STATION_REPLY_POWER_READ:
        return station_encode_power_read(r->dest, out, room, size);
    case STATION_REPLY_DATE_READ:
        return station_encode_date_read(r->dest, out, room, size);
    case STATION_REPLY_SERIAL:
        return station_encode_serial_read(r->dest, out, room, size);
    case STATION_REPLY_MODEL:
        return station_encode_model_read(r->dest, out, room, size);
    case STATION_REPLY_TAG:
        return station_encode_tag_read(r->dest, out, room, size);
    case STATION_REPLY_FORMER_TAG:
        return station_encode_former_tag_read(r->dest, out, room, size);
    default:
        return STATION_REFUSED_VALUE;
    }
}

/* The requests that name a program. */
static uint8_t encode_schedule(const struct request *r, uint8_t *out, size_t room, size_t *size)
{
    const uint8_t *p = r->program;

    switch (r->kind) {
    case STATION_REPLY_SCHEDULE_READ:
        return station_encode_schedule_read(r->dest, p[PROGRAM_NUMBER], out, room, size);
    case STATION_REPLY_SCHEDULE_WRITE:
        return station_encode_schedule_write(r->dest, p[PROGRAM_NUMBER], p[PROGRAM_ON_HOUR], p[PROGRAM_ON_MINUTE],
                                             p[PROGRAM_OFF_HOUR], p[PROGRAM_OFF_MINUTE], p[PROGRAM_INPUT], p[PROGRAM_WEEK],
                                             p[PROGRAM_FLAGS], out, room, size);
    default:
        return station_encode_schedule_enable(r->dest, p[PROGRAM_NUMBER], (uint8_t)r->value, out, room, size);
    }
}

uint8_t request_encode(const struct request *r, struct packet *packet)
{
    uint8_t *out = packet->bytes;
    size_t room = sizeof packet->bytes;
    const uint8_t *d = r->date;

    switch (r->kind) {
    case STATION_REPLY_GET:
        return station_encode_get(r->dest, r->page, r->code, out, room, &packet->len);
    case STATION_REPLY_SET:
        return station_encode_set(r->dest, r->page, r->code, r->value, out, room, &packet->len);
    case STATION_REPLY_POWER_CONTROL:
        return station_encode_power_control(r->dest, r->value, out, room, &packet->len);
    case STATION_REPLY_DATE_WRITE:
        return station_encode_date_write(r->dest, d[DATE_YEAR], d[DATE_MONTH], d[DATE_DAY], d[DATE_WEEKDAY], d[DATE_HOUR],
                                         d[DATE_MINUTE], d[DATE_DAYLIGHT], out, room, &packet->len);
    case STATION_REPLY_TAG_WRITE:
        return station_encode_tag_write(r->dest, (const uint8_t *)r->tag, strlen(r->tag), out, room, &packet->len);
    case STATION_REPLY_SCHEDULE_READ:
    case STATION_REPLY_SCHEDULE_WRITE:
    case STATION_REPLY_SCHEDULE_ENABLE:
        return encode_schedule(r, out, room, &packet->len);
    default:
        return encode_read(r, out, room, &packet->len);
    }
}

/* Whether a date write's reply shows the date as it was sent. */
static bool shows_date(const struct request *request, const struct reply *reply)
{
    for (size_t i = 0; i < DATE_FIELDS; i++)
        if (reply->numbers[2 + i] != request->date[i])
            return false;
    return true;
}

bool request_is_answered(const struct request *request, const struct reply *reply)
{
    const uint16_t *n = reply->numbers;

    if (reply_sender(reply) != request->dest)
        return false;
    if (reply->kind == STATION_REPLY_NULL)
        return true;
    if (reply->kind != request->kind)
        return false;
    switch (reply->kind) {
    case STATION_REPLY_GET:
        return n[2] == request->page && n[3] == request->code;
    case STATION_REPLY_SET:
        return n[2] == request->page && n[3] == request->code && n[6] == request->value;
    case STATION_REPLY_POWER_CONTROL:
        return n[2] == request->value;
    case STATION_REPLY_DATE_WRITE:
        return shows_date(request, reply);
    case STATION_REPLY_TAG_WRITE:
        return reply->count == strlen(request->tag) && memcmp(reply->bytes, request->tag, reply->count) == 0;
    case STATION_REPLY_SCHEDULE_READ:
        return reply->bytes[PROGRAM_NUMBER] == request->program[PROGRAM_NUMBER];
    case STATION_REPLY_SCHEDULE_WRITE:
        return memcmp(reply->bytes, request->program, PROGRAM_NUMBERS) == 0;
    case STATION_REPLY_SCHEDULE_ENABLE:
        return n[2] == request->program[PROGRAM_NUMBER] && n[3] == request->value;
    default:
        return true;
    }
}

bool request_changes(const struct request *request)
{
    switch (request->kind) {
    case STATION_REPLY_SET:
    case STATION_REPLY_POWER_CONTROL:
    case STATION_REPLY_DATE_WRITE:
    case STATION_REPLY_TAG_WRITE:
    case STATION_REPLY_SCHEDULE_WRITE:
    case STATION_REPLY_SCHEDULE_ENABLE:
        return true;
    default:
        return false;
    }
}
