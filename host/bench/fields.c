/* The values of a reply as a list of named fields. */
#include "fields.h"

#include "request.h"
#include "schedule.h"
#include "words.h"

#include <stdio.h>

static void add(struct fields *fields, const char *key, unsigned number, int digits, const char *words)
{
    struct field *field = &fields->list[fields->count++];

    *field = (struct field){.key = key, .number = number, .digits = digits};
    snprintf(field->words, sizeof field->words, "%.*s", (int)sizeof field->words - 1, words != NULL ? words : "");
}

/* A result or status. */
static void add_status(struct fields *fields, const char *key, unsigned status)
{
    add(fields, key, status, 2, status == 0 ? "acknowledged" : "refused");
}

/* Result, page, code, operation type, max, value. */
static void add_parameter(struct fields *fields, const uint16_t *n)
{
    const struct setting *setting = setting_at(n[1], n[2]);
    const char *name = setting != NULL                            ? setting->name
                       : n[1] == ERASE_PAGE && n[2] == ERASE_CODE ? "erase"
                                                                  : "no setting of this board";

    add_status(fields, "result", n[0]);
    add(fields, "page", n[1], 2, NULL);
    add(fields, "code", n[2], 2, name);
    add(fields, "type", n[3], 2, NULL);
    add(fields, "max", n[4], 4, NULL);
    add(fields, "value", n[5], 4, value_words(n[1], n[2], n[5]));
}

static void add_date_fields(struct fields *fields, const uint16_t *date)
{
    char year[8];

    snprintf(year, sizeof year, "%u", 2000u + date[DATE_YEAR]);
    add(fields, "year", date[DATE_YEAR], 2, year);
    add(fields, "month", date[DATE_MONTH], 2, NULL);
    add(fields, "day", date[DATE_DAY], 2, NULL);
    add(fields, "weekday", date[DATE_WEEKDAY], 2, weekday_words(date[DATE_WEEKDAY]));
    add(fields, "hour", date[DATE_HOUR], 2, NULL);
    add(fields, "minute", date[DATE_MINUTE], 2, NULL);
    add(fields, "daylight", date[DATE_DAYLIGHT], 2, NULL);
}

static void add_time_fields(struct fields *fields, const char *hour_key, const char *minute_key, const uint8_t *time)
{
    const char *words = time[0] == NO_HOUR && time[1] == NO_MINUTE ? "not set" : NULL;

    add(fields, hour_key, time[0], 2, words);
    add(fields, minute_key, time[1], 2, words);
}

static void add_program_fields(struct fields *fields, const uint8_t *program)
{
    struct text days = {.len = 0}, flags = {.len = 0};

    add_days(&days, program[PROGRAM_WEEK]);
    add_flags(&flags, program[PROGRAM_FLAGS]);
    add(fields, "program", program[PROGRAM_NUMBER], 2, NULL);
    add_time_fields(fields, "on_hour", "on_minute", program + PROGRAM_ON_HOUR);
    add_time_fields(fields, "off_hour", "off_minute", program + PROGRAM_OFF_HOUR);
    add(fields, "input", program[PROGRAM_INPUT], 2, program_input_words(program[PROGRAM_INPUT]));
    add(fields, "week", program[PROGRAM_WEEK], 2, days.chars);
    add(fields, "flags", program[PROGRAM_FLAGS], 2, flags.chars);
    fields->reserved = program + PROGRAM_RESERVED;
}

static void add_enable_fields(struct fields *fields, const uint16_t *n)
{
    add_status(fields, "status", n[0]);
    add(fields, "program", n[1], 2, NULL);
    add(fields, "enable", n[2], 2, n[2] == 1 ? "enabled" : n[2] == 0 ? "disabled" : NULL);
}

struct fields fields_of(const struct reply *reply)
{
    const uint16_t *n = reply->numbers + 1;
    struct fields fields = {.has_bytes = reply->kind >= STATION_REPLY_SERIAL && reply->kind <= STATION_REPLY_TAG_WRITE};

    switch (reply->kind) {
    case STATION_REPLY_GET:
    case STATION_REPLY_SET:
        add_parameter(&fields, n);
        break;
    case STATION_REPLY_POWER_READ:
    case STATION_REPLY_POWER_CONTROL:
        add_status(&fields, "status", n[0]);
        add(&fields, "mode", n[1], 4, mode_words(n[1]));
        break;
    case STATION_REPLY_DATE_READ:
        add_date_fields(&fields, n);
        break;
    case STATION_REPLY_DATE_WRITE:
        add_status(&fields, "status", n[0]);
        add_date_fields(&fields, n + 1);
        break;
    case STATION_REPLY_TAG_WRITE:
        add_status(&fields, "status", n[0]);
        break;
    case STATION_REPLY_SCHEDULE_READ:
        add_program_fields(&fields, reply->bytes);
        break;
    case STATION_REPLY_SCHEDULE_WRITE:
        add_status(&fields, "status", n[0]);
        add_program_fields(&fields, reply->bytes);
        break;
    case STATION_REPLY_SCHEDULE_ENABLE:
        add_enable_fields(&fields, n);
        break;
    default:
        break;
    }
    return fields;
}
