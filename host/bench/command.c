/* The words of a command as the request that they stand for. */
#include "command.h"

#include "numbers.h"
#include "schedule.h"
#include "words.h"

#include <string.h>

/* ---- get and set */

static const char names_to_give[] =
    "give one of backlight, input, balance, pip-h, pip-v, ambient-low, ambient-high, tile; or a page and a code";

/* Takes a setting's name, or a page and a code, from the front of the words; gives how many words that took, or says why not. */
static int take_pair(char **words, int count, struct request *request)
{
    const struct setting *setting = setting_named(words[0]);
    unsigned page, code;

    if (setting != NULL) {
        request->page = setting->page;
        request->code = setting->code;
        return 1;
    }
    if (!take_number(words[0], 255, &page)) {
        say_usage(names_to_give, "'%s' is neither a setting nor a page", words[0]);
        return 0;
    }
    if (count < 2 || !take_number(words[1], 255, &code)) {
        say_usage(names_to_give, "behind the page %s a code from 0 to 255 is missing", words[0]);
        return 0;
    }
    request->page = (uint8_t)page;
    request->code = (uint8_t)code;
    return 2;
}

static enum status get_request(char **words, int count, struct request *request)
{
    int taken = count > 0 ? take_pair(words, count, request) : 0;

    request->kind = STATION_REPLY_GET;
    if (count == 0)
        return say_usage(names_to_give, "get needs a setting");
    if (taken == 0)
        return STATUS_USAGE;
    if (taken != count)
        return say_usage("type for example: bench get backlight", "get takes one setting and nothing behind it");
    return STATUS_DONE;
}

static enum status set_request(char **words, int count, struct request *request)
{
    int taken = count > 0 ? take_pair(words, count, request) : 0;
    unsigned value;

    request->kind = STATION_REPLY_SET;
    if (count == 0)
        return say_usage(names_to_give, "set needs a setting and a value");
    if (taken == 0)
        return STATUS_USAGE;
    if (count != taken + 1)
        return say_usage("type for example: bench set backlight 80", "set takes one setting and one value");
    if (!take_number(words[taken], 65535, &value))
        return say_usage("give a decimal number, or a hexadecimal one behind 0x, as 100 or 0x64",
                         "a value is a number from 0 to 65535, not '%s'", words[taken]);
    request->value = (uint16_t)value;
    if (request->page == ERASE_PAGE && request->code == ERASE_CODE && value == ERASE_VALUE)
        return say_usage("type: bench erase, which asks first and waits for the right reply", "this Set would erase the board");
    return STATUS_DONE;
}

/* ---- power, date, tags */

static enum status power_request(char **words, int count, struct request *request)
{
    request->kind = STATION_REPLY_POWER_CONTROL;
    if (count == 1 && strcmp(words[0], "on") == 0)
        request->value = 1;
    else if (count == 1 && strcmp(words[0], "standby") == 0)
        request->value = 4;
    else if (count == 1 && strcmp(words[0], "status") == 0)
        request->kind = STATION_REPLY_POWER_READ;
    else
        return say_usage("type: bench power on, bench power standby or bench power status", "power takes on, standby or status");
    return STATUS_DONE;
}

/* Takes "YYYY-MM-DD" and "HH:MM" apart. */
static bool take_date(const char *day, const char *time, unsigned date[DATE_FIELDS])
{
    return take_digits(&day, 4, &date[DATE_YEAR]) && *day++ == '-' && take_digits(&day, 2, &date[DATE_MONTH]) && *day++ == '-' &&
           take_digits(&day, 2, &date[DATE_DAY]) && *day == '\0' &&
           take_hour_and_minute(time, &date[DATE_HOUR], &date[DATE_MINUTE]);
}

static enum status date_request(char **words, int count, struct request *request)
{
    static const char example[] = "type for example: bench date set 2024-02-29 13:45";
    unsigned date[DATE_FIELDS] = {0};

    request->kind = count == 0 ? STATION_REPLY_DATE_READ : STATION_REPLY_DATE_WRITE;
    if (count == 0)
        return STATUS_DONE;
    if (count != 3 || strcmp(words[0], "set") != 0 || !take_date(words[1], words[2], date))
        return say_usage(example, "date takes nothing, or set and a date as YYYY-MM-DD HH:MM");
    if (date[DATE_YEAR] < 2000 || date[DATE_YEAR] > 2099)
        return say_usage(example, "the board keeps years from 2000 to 2099, not %u", date[DATE_YEAR]);
    date[DATE_YEAR] -= 2000;
    date[DATE_WEEKDAY] = station_weekday((uint8_t)date[DATE_YEAR], (uint8_t)date[DATE_MONTH], (uint8_t)date[DATE_DAY]);
    if (date[DATE_WEEKDAY] == STATION_NO_DAY)
        return say_usage(example, "there is no day %s", words[1]);
    if (date[DATE_HOUR] > 23 || date[DATE_MINUTE] > 59)
        return say_usage(example, "there is no time %s", words[2]);
    for (size_t i = 0; i < DATE_FIELDS; i++)
        request->date[i] = (uint8_t)date[i];
    return STATUS_DONE;
}

static enum status tag_request(char **words, int count, struct request *request)
{
    request->kind = count == 0 ? STATION_REPLY_TAG : STATION_REPLY_TAG_WRITE;
    if (count == 0)
        return STATUS_DONE;
    if (count != 2 || strcmp(words[0], "write") != 0)
        return say_usage("type for example: bench tag write 'ROOM 12'", "tag takes nothing, or write and one text");
    if (strlen(words[1]) > STATION_BYTES_ROOM)
        return say_usage("shorten it; a letter outside ASCII takes several bytes",
                         "a tag has at most %d bytes, and this one has %zu", STATION_BYTES_ROOM, strlen(words[1]));
    request->tag = words[1];
    return STATUS_DONE;
}

/* A command of one word. */
static enum status plain_request(uint8_t kind, const char *name, int count, struct request *request)
{
    request->kind = kind;
    if (count != 0)
        return say_usage("leave out what stands behind it", "%s takes nothing behind it", name);
    return STATUS_DONE;
}

/* ---- all commands */

enum status command_request(char **words, int count, struct request *request)
{
    const char *name = words[0];

    memset(request, 0, sizeof *request);
    request->tag = "";
    words++;
    count--;
    if (strcmp(name, "get") == 0)
        return get_request(words, count, request);
    if (strcmp(name, "set") == 0)
        return set_request(words, count, request);
    if (strcmp(name, "power") == 0)
        return power_request(words, count, request);
    if (strcmp(name, "date") == 0)
        return date_request(words, count, request);
    if (strcmp(name, "tag") == 0)
        return tag_request(words, count, request);
    if (strcmp(name, "serial") == 0)
        return plain_request(STATION_REPLY_SERIAL, name, count, request);
    if (strcmp(name, "model") == 0)
        return plain_request(STATION_REPLY_MODEL, name, count, request);
    if (strcmp(name, "former-tag") == 0)
        return plain_request(STATION_REPLY_FORMER_TAG, name, count, request);
    if (strcmp(name, "schedule") == 0)
        return schedule_request(words, count, request);
    return say_usage("give one of get, set, power, date, serial, model, tag, former-tag, schedule, erase, decode",
                     "there is no command '%s'", name);
}
