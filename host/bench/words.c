/* The numbers of replies in words. Which value means what is said by document 002. */
#include "words.h"

#include "request.h"

#include <stdbool.h>
#include <string.h>

const struct setting settings[SETTINGS] = {
    {"backlight", 0x00, 0x10, "0 to 100"},
    {"input", 0x00, 0x60, "1 (VGA), 3 (DVI), 17 (HDMI), or 4, which is kept as 17"},
    {"balance", 0x00, 0x93, "0 (left) to 60 (right)"},
    {"pip-h", 0x02, 0x74, "0 to 100"},
    {"pip-v", 0x02, 0x75, "0 to 100"},
    {"ambient-low", 0x10, 0x33, "0 (dark) to 100 (bright)"},
    {"ambient-high", 0x10, 0x34, "0 (dark) to 100 (bright)"},
    {"tile", 0x10, 0x4A, "1 (common) or 2 (each input)"},
};

const struct setting *setting_named(const char *name)
{
    for (size_t i = 0; i < SETTINGS; i++)
        if (strcmp(settings[i].name, name) == 0)
            return &settings[i];
    return NULL;
}

const struct setting *setting_at(unsigned page, unsigned code)
{
    for (size_t i = 0; i < SETTINGS; i++)
        if (settings[i].page == page && settings[i].code == code)
            return &settings[i];
    return NULL;
}

void add_setting(struct text *text, unsigned page, unsigned code)
{
    const struct setting *setting = setting_at(page, code);

    if (setting != NULL)
        text_add(text, "%s", setting->name);
    else if (page == ERASE_PAGE && code == ERASE_CODE)
        text_add(text, "erase");
    else
        text_add(text, "page %02Xh, code %02Xh", page, code);
}

/* A value with a meaning of its own. */
struct meaning {
    uint8_t page, code;
    uint16_t value;
    const char *words;
};

const char *value_words(unsigned page, unsigned code, unsigned value)
{
    static const struct meaning meanings[] = {
        {0x00, 0x60, 1, "VGA"},    {0x00, 0x60, 3, "DVI"},    {0x00, 0x60, 4, "HDMI, kept as 17"},
        {0x00, 0x60, 17, "HDMI"},  {0x00, 0x93, 0, "left"},   {0x00, 0x93, 30, "centre"},
        {0x00, 0x93, 60, "right"}, {0x10, 0x4A, 1, "common"}, {0x10, 0x4A, 2, "each input"},
    };

    for (size_t i = 0; i < sizeof meanings / sizeof meanings[0]; i++)
        if (meanings[i].page == page && meanings[i].code == code && meanings[i].value == value)
            return meanings[i].words;
    return NULL;
}

/* The names of the kinds, from STATION_REPLY_NULL on. */
static const struct {
    const char *words, *word;
} kinds[] = {
    {"NULL message: the board does not know the request", "null"},
    {"reply to a Get", "get"},
    {"reply to a Set", "set"},
    {"reply to a power status request", "power-status"},
    {"reply to a power control", "power-control"},
    {"reply to a date request", "date"},
    {"reply to a date write", "date-write"},
    {"serial number", "serial"},
    {"model", "model"},
    {"tag", "tag"},
    {"former tag", "former-tag"},
    {"reply to a tag write", "tag-write"},
    {"reply to a schedule request", "schedule"},
    {"reply to a schedule write", "schedule-write"},
    {"reply to a schedule enable write", "schedule-enable"},
};

const char *kind_words(uint8_t kind)
{
    return kinds[kind - STATION_REPLY_NULL].words;
}

const char *kind_word(uint8_t kind)
{
    return kinds[kind - STATION_REPLY_NULL].word;
}

const char *mode_words(unsigned mode)
{
    switch (mode) {
    case 1:
        return "on";
    case 2:
        return "sleep";
    case 4:
        return "standby";
    default:
        return "a mode that is not known";
    }
}

const char *weekday_words(unsigned weekday)
{
    static const char *const names[] = {"Sunday", "Monday", "Tuesday", "Wednesday", "Thursday", "Friday", "Saturday"};

    return weekday < 7 ? names[weekday] : "no weekday";
}

void add_date(struct text *text, const uint16_t *date)
{
    text_add(text, "%s %u-%02u-%02u %02u:%02u", weekday_words(date[DATE_WEEKDAY]), 2000u + date[DATE_YEAR], date[DATE_MONTH],
             date[DATE_DAY], date[DATE_HOUR], date[DATE_MINUTE]);
    if (date[DATE_DAYLIGHT] != 0)
        text_add(text, ", daylight field %u", date[DATE_DAYLIGHT]);
}
