/* A request to a board, how it becomes a packet, and which reply answers it. */
#ifndef REQUEST_H
#define REQUEST_H

#include "reply.h"

/* The pair that erases, with value 1. */
#define ERASE_PAGE 0xF0
#define ERASE_CODE 0x01
#define ERASE_VALUE 1

/* The fields of a date in the packet's order. */
enum { DATE_YEAR, DATE_MONTH, DATE_DAY, DATE_WEEKDAY, DATE_HOUR, DATE_MINUTE, DATE_DAYLIGHT, DATE_FIELDS };

/* The programs of a board's weekly schedule, from 0 on. */
#define PROGRAMS 7

/* The numbers of a program in the packet's order; from PROGRAM_RESERVED on they are reserved. */
enum {
    PROGRAM_NUMBER,
    PROGRAM_ON_HOUR,
    PROGRAM_ON_MINUTE,
    PROGRAM_OFF_HOUR,
    PROGRAM_OFF_MINUTE,
    PROGRAM_INPUT, /* 0: none */
    PROGRAM_WEEK,  /* a bit for each day, Monday's is bit 0 */
    PROGRAM_FLAGS,
    PROGRAM_RESERVED,
    PROGRAM_NUMBERS = 16
};

/* Hour and minute of a time that is not set. */
enum { NO_HOUR = 24, NO_MINUTE = 60 };

/* The bits of a program's flags. */
enum { FLAG_DAILY = 1, FLAG_EVERY_WEEK = 2, FLAG_ENABLED = 4 };

struct request {
    uint8_t kind;                     /* the station_reply that answers it */
    uint16_t dest;                    /* 1 to 8, or STATION_ALL */
    uint8_t page, code;               /* Get and Set */
    uint16_t value;                   /* Set; the mode of a power control; whether a schedule enable write enables */
    uint8_t date[DATE_FIELDS];        /* date write */
    const char *tag;                  /* tag write */
    uint8_t program[PROGRAM_NUMBERS]; /* schedule write; of a schedule read and an enable write the first, its number */
};

/* Writes the request's packet. The result is 0 or a station_refusal. */
uint8_t request_encode(const struct request *request, struct packet *packet);

/* Whether a good reply answers this request: the monitor that was asked, and the same kind, pair and values, or NULL. */
bool request_is_answered(const struct request *request, const struct reply *reply);

/* Whether the request asks the board to change something. */
bool request_changes(const struct request *request);

#endif
