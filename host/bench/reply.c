/* A reply as station.h's reader gives it. */
#include "reply.h"

#include <string.h>

bool reply_read(struct reply *reply, const uint8_t *packet, size_t len)
{
    memset(reply, 0, sizeof *reply);
    reply->kind = station_read(packet, len, reply->numbers, STATION_NUMBERS_ROOM, reply->bytes, STATION_BYTES_ROOM, &reply->count);
    return reply->kind >= STATION_REPLY_NULL;
}

unsigned reply_sender(const struct reply *reply)
{
    return reply->numbers[0];
}

bool reply_is(const struct reply *one, const struct reply *other)
{
    return one->kind == other->kind && memcmp(one->numbers, other->numbers, sizeof one->numbers) == 0 &&
           one->count == other->count && memcmp(one->bytes, other->bytes, one->count) == 0;
}

bool reply_is_refusal(const struct reply *reply)
{
    switch (reply->kind) {
    case STATION_REPLY_NULL:
        return true;
    case STATION_REPLY_GET:
    case STATION_REPLY_SET:
    case STATION_REPLY_POWER_READ:
    case STATION_REPLY_POWER_CONTROL:
    case STATION_REPLY_DATE_WRITE:
    case STATION_REPLY_TAG_WRITE:
    case STATION_REPLY_SCHEDULE_WRITE:
    case STATION_REPLY_SCHEDULE_ENABLE:
        return reply->numbers[1] != 0;
    default:
        return false;
    }
}

const char *refusal_meaning(uint8_t refusal)
{
    switch (refusal) {
    case STATION_REFUSED_SHORT_BUFFER:
        return "a buffer of this program is too short";
    case STATION_REFUSED_MONITOR_ID:
        return "the monitor ID is neither 1 to 8 nor all";
    case STATION_REFUSED_VALUE:
        return "a power mode, a date, a tag or a program is outside its range";
    case STATION_REFUSED_REPLY_SHORT:
        return "it has fewer than 13 bytes, and no reply is that short";
    case STATION_REFUSED_REPLY_HEADER:
        return "its header is not that of a reply: 01h, '0', '0', the sender A to H, and the type B, D or F";
    case STATION_REFUSED_REPLY_LENGTH:
        return "its length digits are bad, outside 4 to 64, or not the length that it has";
    case STATION_REFUSED_REPLY_NO_RETURN:
        return "its last byte is not CR (0Dh)";
    case STATION_REFUSED_REPLY_CHECK_CODE:
        return "its check code does not fit its bytes";
    case STATION_REFUSED_REPLY_MESSAGE:
        return "its message is none of the replies that a board gives";
    default:
        return "a number that the station does not give";
    }
}
