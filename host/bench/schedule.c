/* The programs of a board's weekly schedule. Which bit means what is said by document 000. */
#include "schedule.h"

#include "numbers.h"
#include "words.h"

#include <string.h>

enum { DAYS = 7, WEEK_RESERVED = 0x80, FLAGS_RESERVED = 0xF8 };

/* The setting whose values a program's input has. */
enum { INPUT_PAGE = 0x00, INPUT_CODE = 0x60 };

/* By their bits in WEEK. */
static const char *const day_names[DAYS] = {"mon", "tue", "wed", "thu", "fri", "sat", "sun"};

/* ---- the words of a command */

static const char example[] = "type for example: bench schedule 2 set 07:00 23:30 input 17 days mon-fri every-week";

/* The words that are left of a command. */
struct words {
    char **next;
    int count;
};

/* Takes the next word where it is this one. */
static bool take_word(struct words *words, const char *word)
{
    if (words->count == 0 || strcmp(words->next[0], word) != 0)
        return false;
    words->next++;
    words->count--;
    return true;
}

/* Takes the next word, whatever it is; an empty one where there is none. */
static const char *take_any(struct words *words)
{
    if (words->count == 0)
        return "";
    words->count--;
    return *words->next++;
}

/* Takes a time, or '-' for one that is not set. */
static enum status take_time(struct words *words, uint8_t *hour_place, uint8_t *minute_place)
{
    const char *word = take_any(words);
    unsigned hour = NO_HOUR, minute = NO_MINUTE;

    if (strcmp(word, "-") != 0 && (!take_hour_and_minute(word, &hour, &minute) || hour > 23 || minute > 59))
        return say_usage(example, "a time is HH:MM from 00:00 to 23:59, or - where it is not to be set, not '%s'", word);
    *hour_place = (uint8_t)hour;
    *minute_place = (uint8_t)minute;
    return STATUS_DONE;
}

static enum status take_input(struct words *words, uint8_t *place)
{
    const char *word = take_any(words);
    unsigned input = 0;

    if (strcmp(word, "none") != 0 && (!take_number(word, 255, &input) || input == 0 || program_input_words(input) == NULL))
        return say_usage(example, "a program chooses input 1 (VGA), 3 (DVI), 17 (HDMI) or none, not '%s'", word);
    *place = (uint8_t)input;
    return STATUS_DONE;
}

/* Takes a day at the start of a text; DAYS where there is none. */
static unsigned take_day(const char **text)
{
    unsigned day = 0;

    while (day < DAYS && strncmp(*text, day_names[day], strlen(day_names[day])) != 0)
        day++;
    if (day < DAYS)
        *text += strlen(day_names[day]);
    return day;
}

/* Takes days with commas between them; 'mon-fri' are all from the first to the last. */
static bool take_day_list(const char *text, unsigned *week)
{
    for (;; text++) {
        unsigned first = take_day(&text), last = first;

        if (*text == '-') {
            text++;
            last = take_day(&text);
        }
        if (first == DAYS || last == DAYS || last < first)
            return false;
        for (unsigned day = first; day <= last; day++)
            *week |= 1u << day;
        if (*text != ',')
            return *text == '\0';
    }
}

static enum status take_days(struct words *words, uint8_t *place)
{
    const char *word = take_any(words);
    unsigned week = 0;

    if (strcmp(word, "none") != 0 && !take_day_list(word, &week))
        return say_usage(example, "days are mon, tue, wed, thu, fri, sat, sun, as in mon-fri or mon,wed,sat-sun, or none, not '%s'",
                         word);
    *place = (uint8_t)week;
    return STATUS_DONE;
}

/* Takes how often the program runs, and whether it is enabled; nothing may stand behind that. */
static enum status take_flags(struct words *words, uint8_t *place)
{
    unsigned flags = take_word(words, "daily") ? FLAG_DAILY : take_word(words, "every-week") ? FLAG_EVERY_WEEK : 0;

    if (flags == 0 && !take_word(words, "once"))
        return say_usage(example, "behind the times, input and days stands daily, every-week or once, not '%s'", take_any(words));
    if (take_word(words, "enabled") || !take_word(words, "disabled"))
        flags |= FLAG_ENABLED;
    if (words->count > 0)
        return say_usage(example, "a program ends with enabled or disabled, not with '%s'", words->next[0]);
    *place = (uint8_t)flags;
    return STATUS_DONE;
}

/* Takes a program: ON OFF [input INPUT] [days DAYS] daily|every-week|once [enabled|disabled]. */
static enum status take_program(struct words *words, uint8_t *program)
{
    enum status status = take_time(words, &program[PROGRAM_ON_HOUR], &program[PROGRAM_ON_MINUTE]);

    if (status == STATUS_DONE)
        status = take_time(words, &program[PROGRAM_OFF_HOUR], &program[PROGRAM_OFF_MINUTE]);
    if (status == STATUS_DONE && take_word(words, "input"))
        status = take_input(words, &program[PROGRAM_INPUT]);
    if (status == STATUS_DONE && take_word(words, "days"))
        status = take_days(words, &program[PROGRAM_WEEK]);
    return status == STATUS_DONE ? take_flags(words, &program[PROGRAM_FLAGS]) : status;
}

enum status schedule_request(char **given, int count, struct request *request)
{
    struct words words = {given, count};
    unsigned number;

    if (count == 0)
        return say_usage("type for example: bench schedule 2", "schedule needs a program");
    if (!take_number(take_any(&words), PROGRAMS - 1, &number))
        return say_usage("type for example: bench schedule 2", "a program is a number from 0 to %d, not '%s'", PROGRAMS - 1,
                         given[0]);
    request->program[PROGRAM_NUMBER] = (uint8_t)number;
    request->kind = STATION_REPLY_SCHEDULE_READ;
    if (words.count == 0)
        return STATUS_DONE;
    request->kind = STATION_REPLY_SCHEDULE_WRITE;
    if (take_word(&words, "set"))
        return take_program(&words, request->program);
    request->kind = STATION_REPLY_SCHEDULE_ENABLE;
    request->value = take_word(&words, "on");
    if ((request->value == 0 && !take_word(&words, "off")) || words.count > 0)
        return say_usage(example,
                         "schedule takes a program, and behind it nothing, on, off, or set and a program's times and words");
    return STATUS_DONE;
}

/* ---- a program in words */

static void add_time(struct text *text, const char *name, unsigned hour, unsigned minute)
{
    if (hour == NO_HOUR && minute == NO_MINUTE)
        text_add(text, "%s -", name);
    else
        text_add(text, "%s %02u:%02u", name, hour, minute);
}

const char *program_input_words(unsigned input)
{
    if (input == 0)
        return "none";
    return input == 4 ? NULL : value_words(INPUT_PAGE, INPUT_CODE, input); /* 4 is another name of 17 in a Set alone */
}

static void add_input(struct text *text, unsigned input)
{
    const char *words = program_input_words(input);

    if (input == 0)
        text_add(text, ", input none");
    else if (words == NULL)
        text_add(text, ", input %u", input);
    else
        text_add(text, ", input %u (%s)", input, words);
}

void add_days(struct text *text, unsigned week)
{
    const char *comma = "";

    for (unsigned day = 0, last; day < DAYS; day = last + 1) {
        last = day;
        if ((week >> day & 1) == 0)
            continue;
        while (last + 1 < DAYS && (week >> (last + 1) & 1) != 0)
            last++;
        text_add(text, "%s%s", comma, day_names[day]);
        if (last > day)
            text_add(text, "-%s", day_names[last]);
        comma = ",";
    }
    if ((week & WEEK_RESERVED) != 0)
        text_add(text, "%sreserved bit", comma);
    if (week == 0)
        text_add(text, "none");
}

void add_flags(struct text *text, unsigned flags)
{
    static const char *const repeats[] = {
        [0] = "once",
        [FLAG_DAILY] = "daily",
        [FLAG_EVERY_WEEK] = "every week",
        [FLAG_DAILY | FLAG_EVERY_WEEK] = "daily and every week",
    };

    text_add(text, "%s, %s", repeats[flags & (FLAG_DAILY | FLAG_EVERY_WEEK)], (flags & FLAG_ENABLED) != 0 ? "enabled" : "disabled");
    if ((flags & FLAGS_RESERVED) != 0)
        text_add(text, ", reserved bits");
}

void add_program(struct text *text, const uint8_t *program)
{
    bool is_reserved_zero = true;

    add_time(text, "on", program[PROGRAM_ON_HOUR], program[PROGRAM_ON_MINUTE]);
    add_time(text, ", off", program[PROGRAM_OFF_HOUR], program[PROGRAM_OFF_MINUTE]);
    add_input(text, program[PROGRAM_INPUT]);
    text_add(text, ", days ");
    add_days(text, program[PROGRAM_WEEK]);
    text_add(text, ", ");
    add_flags(text, program[PROGRAM_FLAGS]);
    for (size_t i = PROGRAM_RESERVED; i < PROGRAM_NUMBERS; i++)
        is_reserved_zero = is_reserved_zero && program[i] == 0;
    if (!is_reserved_zero)
        text_add(text, ", reserved numbers");
}
