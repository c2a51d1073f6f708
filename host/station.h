/*
 * The station's encoder of requests and reader of replies, as C functions on numbers and bytes.
 *
 * Document 01 ('Packet', 'What a good packet does', 'Station') and document 02, which amends it, decide what they do, and the names
 * here are their names. Each function is proved to do so for every input. The program that calls it is checked by nothing, so the
 * caller has to keep this:
 *
 * - Behind each pointer stand as many elements as the length after it says; behind `size` and `count` stands one.
 * - The buffers and places of one call do not overlap.
 * - A null pointer is passed only with length 0, and better not even then; `size` and `count` are never null.
 * - While a call runs, no one else writes what it was lent or uses what it may write.
 *
 * The functions keep no state, so several threads may call them at the same time on different buffers.
 *
 * A refused call writes nothing at all: the buffers and the place for the length stay as they were.
 */
#ifndef STATION_H
#define STATION_H

#include <stddef.h>
#include <stdint.h>

#ifdef __cplusplus
extern "C" {
#endif

/* The destination of a request to every monitor; no byte has this value. Other destinations are the monitor IDs 1 to 8. */
#define STATION_ALL 256

/* The least room that the calls ask for, in elements. */
#define STATION_PACKET_ROOM 64 /* out */
#define STATION_NUMBERS_ROOM 9 /* numbers */
#define STATION_BYTES_ROOM 16  /* bytes */

/* A reply's first bytes tell its length once there are STATION_HEADER_BYTES; no reply is longer than STATION_REPLY_MOST. */
#define STATION_HEADER_BYTES 7
#define STATION_REPLY_MOST 73

/* Why a call is refused. Where several fit, the one that stands first here is given. */
enum station_refusal {
    STATION_REFUSED_SHORT_BUFFER = 10,     /* a lent buffer has less than the least room */
    STATION_REFUSED_MONITOR_ID = 20,       /* encoder: the destination is neither 1 to 8 nor STATION_ALL */
    STATION_REFUSED_VALUE = 21,            /* encoder: a mode, a date, a tag or a number of a schedule is outside its range */
    STATION_REFUSED_REPLY_SHORT = 30,      /* reader: fewer than 13 bytes */
    STATION_REFUSED_REPLY_HEADER = 31,     /* reader: not 01h '0' '0' in front, source not A to H, or type not B, D or F */
    STATION_REFUSED_REPLY_LENGTH = 32,     /* reader: length digits bad, outside 4 to 64, or not this packet's */
    STATION_REFUSED_REPLY_NO_RETURN = 33,  /* reader: the last byte is not CR */
    STATION_REFUSED_REPLY_CHECK_CODE = 34, /* reader: the check code differs */
    STATION_REFUSED_REPLY_MESSAGE = 35     /* reader: the message is none of the replies below */
};

/* The kind of a reply: what it answers. No refusal has such a number. */
enum station_reply {
    STATION_REPLY_NULL = 101,
    STATION_REPLY_GET = 102,
    STATION_REPLY_SET = 103,
    STATION_REPLY_POWER_READ = 104,
    STATION_REPLY_POWER_CONTROL = 105,
    STATION_REPLY_DATE_READ = 106,
    STATION_REPLY_DATE_WRITE = 107,
    STATION_REPLY_SERIAL = 108,
    STATION_REPLY_MODEL = 109,
    STATION_REPLY_TAG = 110,
    STATION_REPLY_FORMER_TAG = 111,
    STATION_REPLY_TAG_WRITE = 112,
    STATION_REPLY_SCHEDULE_READ = 113,
    STATION_REPLY_SCHEDULE_WRITE = 114,
    STATION_REPLY_SCHEDULE_ENABLE = 115
};

/*
 * The encoder. Every function of it does this:
 *
 *   dest            1 to 8, or STATION_ALL
 *   out, out_len    the buffer for the packet, of at least STATION_PACKET_ROOM bytes
 *   size            the place for the packet's length
 *
 * Checked in this order: 10 where out_len is below 64, 20 for the destination, 21 for a value outside its range, where a range is
 * said below. The result is the first of these that fits, and then nothing is written.
 *
 * Else the result is 0, the packet stands in the first bytes of `out`, its length in `size`, and the rest of `out` is as it was.
 * No packet is longer than 47 bytes. Its digits and its name are in capitals.
 */

/* Asks for a setting. Any page and code. */
uint8_t station_encode_get(uint16_t dest, uint8_t page, uint8_t code, uint8_t *out, size_t out_len, size_t *size);

/* Changes a setting; page F0h, code 01h, value 1 erases the board. Any page, code and value: the board judges them. */
uint8_t station_encode_set(uint16_t dest, uint8_t page, uint8_t code, uint16_t value, uint8_t *out, size_t out_len, size_t *size);

/* Asks for the power mode. */
uint8_t station_encode_power_read(uint16_t dest, uint8_t *out, size_t out_len, size_t *size);

/* Changes the power mode: 1 on, 4 standby; 21 for another. */
uint8_t station_encode_power_control(uint16_t dest, uint16_t mode, uint8_t *out, size_t out_len, size_t *size);

/* Asks for the date. */
uint8_t station_encode_date_read(uint16_t dest, uint8_t *out, size_t out_len, size_t *size);

/*
 * Changes the date: year 0 to 99, which is 2000 to 2099; month 1 to 12; a day that the month has, 29 February where the year
 * divides by 4; the weekday that falls on it, which station_weekday tells; hour 0 to 23, minute 0 to 59, daylight 0; 21 for any
 * other date.
 */
uint8_t station_encode_date_write(uint16_t dest, uint8_t year, uint8_t month, uint8_t day, uint8_t weekday, uint8_t hour,
                                  uint8_t minute, uint8_t daylight, uint8_t *out, size_t out_len, size_t *size);

/* What station_weekday gives where there is no such day. */
#define STATION_NO_DAY 7

/*
 * The weekday that falls on a day, Sunday 0 to Saturday 6. STATION_NO_DAY where the year is past 99, and where the month has no
 * such day: 31 April, 29 February 2001, any day of a month 0 or 13.
 */
uint8_t station_weekday(uint8_t year, uint8_t month, uint8_t day);

/* Asks for the serial number. */
uint8_t station_encode_serial_read(uint16_t dest, uint8_t *out, size_t out_len, size_t *size);

/* Asks for the model. */
uint8_t station_encode_model_read(uint16_t dest, uint8_t *out, size_t out_len, size_t *size);

/* Asks for the tag. */
uint8_t station_encode_tag_read(uint16_t dest, uint8_t *out, size_t out_len, size_t *size);

/* Asks for the former tag. */
uint8_t station_encode_former_tag_read(uint16_t dest, uint8_t *out, size_t out_len, size_t *size);

/* Changes the tag to the tag_len bytes at `tag`, 0 to 16 of any value; 21 for more. */
uint8_t station_encode_tag_write(uint16_t dest, const uint8_t *tag, size_t tag_len, uint8_t *out, size_t out_len, size_t *size);

/* Asks for a program of the weekly schedule, 0 to 6; 21 for another. */
uint8_t station_encode_schedule_read(uint16_t dest, uint8_t program, uint8_t *out, size_t out_len, size_t *size);

/*
 * Changes a program of the weekly schedule: program 0 to 6; the times to turn on and off each hour 0 to 23 with minute 0 to 59,
 * or hour 24 with minute 60 for none; input 1, 3, 17, or 0 for none; week 0 to 7Fh, a bit for each day, bit 0 Monday to bit 6
 * Sunday; flags 0 to 7, bit 0 daily, bit 1 weekly, bit 2 enabled; 21 where one is outside. The two times are judged each by
 * itself, so that equal ones are sent. The eight reserved numbers of the message are sent as 0.
 */
uint8_t station_encode_schedule_write(uint16_t dest, uint8_t program, uint8_t on_hour, uint8_t on_minute, uint8_t off_hour,
                                      uint8_t off_minute, uint8_t input, uint8_t week, uint8_t flags, uint8_t *out, size_t out_len,
                                      size_t *size);

/* Enables (1) or disables (0) a program of the weekly schedule, 0 to 6; 21 for another number in either place. */
uint8_t station_encode_schedule_enable(uint16_t dest, uint8_t program, uint8_t enable, uint8_t *out, size_t out_len, size_t *size);

/*
 * Where a reply ends: how many bytes a packet has whose first bytes these are, 13 to STATION_REPLY_MOST. It is L + 9 for the length
 * digits L, first[5] and first[6], in either case; a CR, 03h or 01h before the end is a byte like others, for a check code may be
 * one.
 *
 * 0 while there are fewer than STATION_HEADER_BYTES, and from then on where the length digits are bad or outside 4 to 64: nothing
 * tells then where the packet ends. No other byte is looked at, so a packet that is no reply has its length too.
 */
size_t station_reply_size(const uint8_t *first, size_t first_len);

/*
 * The reader: takes one whole packet apart, with nothing around it; station_reply_size tells where it ends. Its digits may be in
 * either case; its source, its type and its name are in capitals.
 *
 *   packet, packet_len      the packet
 *   numbers, numbers_len    the place for the reply's numbers, of at least STATION_NUMBERS_ROOM
 *   bytes, bytes_len        the place for a serial number, a model, a tag or a program, of at least STATION_BYTES_ROOM
 *   count                   the place for how many bytes that is
 *
 * Checked in this order: 10 where numbers_len is below 9 or bytes_len below 16, then 30, 31, 32, 33, 34, 35. The result is the
 * first of these that fits, and then nothing is written.
 *
 * Else the result is the kind of the reply. numbers[0] is the sender's ID, 1 to 8; from numbers[1] on stand:
 *
 *   101 NULL              none: the board does not know the request
 *   102 Get               result, page, code, operation type, max, current value
 *   103 Set               result, page, code, operation type, max, requested value
 *   104 power read        status, mode: 1, 2 or 4
 *   105 power control     status, mode
 *   106 date read         year, month, day, weekday, hour, minute, daylight
 *   107 date write        status, year, month, day, weekday, hour, minute, daylight
 *   108 serial number     none
 *   109 model             none
 *   110 tag               none
 *   111 former tag        none
 *   112 tag write         status
 *   113 schedule read     none: its sixteen numbers are the bytes
 *   114 schedule write    status: its sixteen numbers are the bytes
 *   115 schedule enable   status, program, enable
 *
 * A result or status is 0, acknowledged, or 1, refused; an operation type is 0 or 1. Max, value and the mode of 105 may be any
 * number to 65535, page, code, the fields of a date, program, enable and the numbers of a program any to 255: the reader does not
 * judge them.
 *
 * The kinds 108 to 112 put their 0 to 16 bytes, and 113 and 114 the sixteen numbers of a program, at the start of `bytes`, and how
 * many they are into `count`; the others put 0 there. The sixteen are program, on hour, on minute, off hour, off minute, input,
 * week, flags and eight reserved ones. What `numbers` and `bytes` hold behind that is as it was.
 *
 * What the check code gives: it is the exclusive or of all bytes after SOH through ETX. A good packet of which exactly one byte is
 * changed, in one bit or more, is always refused: 34, or before that 31 (header), 32 (length digits) or 33 (CR). SOH and CR are not
 * covered; they are checked by their values, and the length digits also against the packet's length.
 *
 * What it can't give: two covered bytes exchanged, or two changed by the same difference, the check code itself being one of them
 * perhaps, go unnoticed by it, and only the other checks can still refuse.
 *
 * Nothing in a packet says which request it answers.
 */
uint8_t station_read(const uint8_t *packet, size_t packet_len, uint16_t *numbers, size_t numbers_len, uint8_t *bytes,
                     size_t bytes_len, size_t *count);

#ifdef __cplusplus
}
#endif

#endif
