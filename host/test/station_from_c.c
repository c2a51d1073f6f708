/*
 * Tries every function of station.h. What is expected is worked out here from document 01, and of schedules, days and digits from
 * document 02. The C library says which days there are, and their weekdays.
 *
 * No sanitizer sees into the library, so in one round every buffer lent to it begins right behind a page that may not be touched,
 * and in another it ends right before one: a read or a write there ends the program. What lies on the other side is compared.
 */
#define _DEFAULT_SOURCE /* MAP_ANONYMOUS, timegm */

#include "calendar.h"
#include "station.h"

#include <ctype.h>
#include <signal.h>
#include <stdarg.h>
#include <stdbool.h>
#include <stdio.h>
#include <stdlib.h>
#include <string.h>
#include <sys/mman.h>
#include <unistd.h>

#define COUNT(array) (sizeof(array) / sizeof(array)[0])

/* Counting */

enum { FAILURES_SHOWN = 20 };

static unsigned long checks, failures;

#define CHECK(good, ...) check((good), __LINE__, __VA_ARGS__)

/* One check; a failure shows its line and the case that `format` tells. */
__attribute__((format(printf, 3, 4))) static void check(int good, int line, const char *format, ...)
{
    va_list values;

    checks++;
    if (good)
        return;
    if (++failures > FAILURES_SHOWN)
        return;
    fprintf(stderr, "%s:%d: ", __FILE__, line);
    va_start(values, format);
    vfprintf(stderr, format, values);
    va_end(values);
    fputc('\n', stderr);
}

/* Lent memory */

enum page { OUT, TAG, PACKET, NUMBERS, BYTES, LENGTH, PAGES };

/* So many bytes at the guarded edge of a page are filled with the pattern and compared. */
enum { ZONE = 320 };

static uint8_t *pages[PAGES];
static size_t page_size;
static int at_end; /* whether buffers end right before the guarded page behind, or begin right behind the one in front */

static void make_pages(void)
{
    page_size = (size_t)sysconf(_SC_PAGESIZE);
    for (int page = 0; page < PAGES; page++) {
        uint8_t *three = mmap(NULL, 3 * page_size, PROT_NONE, MAP_PRIVATE | MAP_ANONYMOUS, -1, 0);

        if (three == MAP_FAILED || mprotect(three + page_size, page_size, PROT_READ | PROT_WRITE) != 0) {
            perror("station_from_c");
            exit(1);
        }
        pages[page] = three + page_size;
    }
}

static uint8_t pattern(size_t place)
{
    return (uint8_t)(0xC3 + 37 * place);
}

static uint8_t *zone(enum page page)
{
    return at_end ? pages[page] + page_size - ZONE : pages[page];
}

/* A buffer of n bytes at the edge of its page, filled with the pattern. */
static void *lend(enum page page, size_t n)
{
    for (size_t i = 0; i < ZONE; i++)
        zone(page)[i] = pattern(i);
    return at_end ? zone(page) + ZONE - n : zone(page);
}

static const uint8_t *lend_copy(enum page page, const void *bytes, size_t n)
{
    uint8_t *lent = lend(page, n);

    if (n > 0)
        memcpy(lent, bytes, n);
    return lent;
}

/* Whether n bytes at `lent` are as given and all else that was filled still has the pattern. */
static int holds_only(enum page page, const void *lent, const void *bytes, size_t n)
{
    const uint8_t *first = lent, *given = bytes;

    for (size_t i = 0; i < ZONE; i++) {
        const uint8_t *at = zone(page) + i;

        if (*at != (at >= first && at < first + n ? given[at - first] : pattern(i)))
            return 0;
    }
    return 1;
}

/* Whether nothing was written there. */
static int is_untouched(enum page page)
{
    return holds_only(page, zone(page), NULL, 0);
}

/* Packets, put together here */

enum { LONGEST = 96 };

struct packet {
    size_t size;
    uint8_t bytes[LONGEST];
};

static void mend_check_code(struct packet *p)
{
    uint8_t code = 0;

    for (size_t i = 1; i < p->size - 2; i++)
        code ^= p->bytes[i];
    p->bytes[p->size - 2] = code;
}

static struct packet packet_of(int destination, int source, int type, const char *text)
{
    struct packet p = {.size = strlen(text) + 11};
    char header[8];

    snprintf(header, sizeof header, "%c0%c%c%c%02X", 0x01, destination, source, type, (unsigned)(strlen(text) + 2) & 0xFF);
    memcpy(p.bytes, header, 7);
    p.bytes[7] = 0x02;
    memcpy(p.bytes + 8, text, strlen(text));
    p.bytes[p.size - 3] = 0x03;
    p.bytes[p.size - 1] = 0x0D;
    mend_check_code(&p);
    return p;
}

static struct packet reply_of(int type, const char *text)
{
    return packet_of('0', 'A', type, text);
}

/* The bytes that a line of hexadecimal numbers names. */
static struct packet packet_in_hex(const char *hex)
{
    struct packet p = {0};
    char *end;

    for (; *hex != '\0'; hex = end)
        p.bytes[p.size++] = (uint8_t)strtoul(hex, &end, 16);
    return p;
}

/* Requests */

enum kind {
    GET,
    SET,
    POWER_READ,
    POWER_CONTROL,
    DATE_READ,
    DATE_WRITE,
    SERIAL_READ,
    MODEL_READ,
    TAG_READ,
    FORMER_TAG_READ,
    TAG_WRITE,
    SCHEDULE_READ,
    SCHEDULE_WRITE,
    SCHEDULE_ENABLE
};

static const char *const kinds[] = {"get",        "set",           "power read",     "power control",  "date read",
                                    "date write", "serial read",   "model read",     "tag read",       "former tag read",
                                    "tag write",  "schedule read", "schedule write", "schedule enable"};

struct request {
    enum kind kind;
    uint8_t page, code;
    uint16_t value; /* a mode too */
    uint8_t date[7];
    uint8_t program[8]; /* its number and its fields; for an enable write its number and the enable */
    size_t tag_len;
    const char *tag;
    char type;
    const char *text;
};

static const struct request every_request[] = {
    {.kind = GET, .page = 0x10, .code = 0x4A, .type = 'C', .text = "104A"},
    {.kind = SET, .page = 0xF0, .code = 0x01, .value = 0xBEEF, .type = 'E', .text = "F001BEEF"},
    {.kind = POWER_READ, .type = 'A', .text = "01D6"},
    {.kind = POWER_CONTROL, .value = 1, .type = 'A', .text = "C203D60001"},
    {.kind = POWER_CONTROL, .value = 4, .type = 'A', .text = "C203D60004"},
    {.kind = DATE_READ, .type = 'A', .text = "C211"},
    {.kind = DATE_WRITE, .date = {0, 1, 1, 6, 0, 0, 0}, .type = 'A', .text = "C21200010106000000"},
    {.kind = DATE_WRITE, .date = {99, 12, 31, 4, 23, 59, 0}, .type = 'A', .text = "C212630C1F04173B00"},
    {.kind = SERIAL_READ, .type = 'A', .text = "C216"},
    {.kind = MODEL_READ, .type = 'A', .text = "C217"},
    {.kind = TAG_READ, .type = 'A', .text = "F010"},
    {.kind = FORMER_TAG_READ, .type = 'A', .text = "F012"},
    {.kind = TAG_WRITE, .tag_len = 0, .tag = "", .type = 'A', .text = "F011"},
    {.kind = TAG_WRITE, .tag_len = 4, .tag = "\x00\x0D\xFF\x41", .type = 'A', .text = "F011000DFF41"},
    {.kind = TAG_WRITE, .tag_len = 16, .tag = "0123456789ABCDEF", .type = 'A', .text = "F01130313233343536373839414243444546"},
    {.kind = SCHEDULE_READ, .program = {0}, .type = 'A', .text = "C22100"},
    {.kind = SCHEDULE_READ, .program = {6}, .type = 'A', .text = "C22106"},
    {.kind = SCHEDULE_WRITE,
     .program = {2, 7, 0, 23, 30, 17, 0x1F, 6},
     .type = 'A',
     .text = "C222020700171E111F060000000000000000"},
    {.kind = SCHEDULE_WRITE,
     .program = {6, 24, 60, 24, 60, 0, 0x7F, 7},
     .type = 'A',
     .text = "C22206183C183C007F070000000000000000"},
    {.kind = SCHEDULE_ENABLE, .program = {0, 1}, .type = 'A', .text = "C2150001"},
    {.kind = SCHEDULE_ENABLE, .program = {6, 0}, .type = 'A', .text = "C2150600"},
};

static uint8_t encode(const struct request *r, uint16_t dest, uint8_t *out, size_t out_len, size_t *size)
{
    const uint8_t *d = r->date, *p = r->program;

    switch (r->kind) {
    case GET:
        return station_encode_get(dest, r->page, r->code, out, out_len, size);
    case SET:
        return station_encode_set(dest, r->page, r->code, r->value, out, out_len, size);
    case POWER_READ:
        return station_encode_power_read(dest, out, out_len, size);
    case POWER_CONTROL:
        return station_encode_power_control(dest, r->value, out, out_len, size);
    case DATE_READ:
        return station_encode_date_read(dest, out, out_len, size);
    case DATE_WRITE:
        return station_encode_date_write(dest, d[0], d[1], d[2], d[3], d[4], d[5], d[6], out, out_len, size);
    case SERIAL_READ:
        return station_encode_serial_read(dest, out, out_len, size);
    case MODEL_READ:
        return station_encode_model_read(dest, out, out_len, size);
    case TAG_READ:
        return station_encode_tag_read(dest, out, out_len, size);
    case FORMER_TAG_READ:
        return station_encode_former_tag_read(dest, out, out_len, size);
    case TAG_WRITE:
        return station_encode_tag_write(dest, lend_copy(TAG, r->tag, r->tag_len), r->tag_len, out, out_len, size);
    case SCHEDULE_READ:
        return station_encode_schedule_read(dest, p[0], out, out_len, size);
    case SCHEDULE_WRITE:
        return station_encode_schedule_write(dest, p[0], p[1], p[2], p[3], p[4], p[5], p[6], p[7], out, out_len, size);
    case SCHEDULE_ENABLE:
        return station_encode_schedule_enable(dest, p[0], p[1], out, out_len, size);
    }
    return 255;
}

#define EXPECT_PACKET(...) expect_packet(__LINE__, __VA_ARGS__)

static void expect_packet(int line, const struct request *r, uint16_t dest, size_t out_len, struct packet p)
{
    uint8_t *out = lend(OUT, out_len);
    size_t *size = lend(LENGTH, sizeof *size);
    uint8_t result = encode(r, dest, out, out_len, size);

    check(result == 0, line, "%s to %d: result %d instead of 0", kinds[r->kind], dest, result);
    check(holds_only(LENGTH, size, &p.size, sizeof p.size), line, "%s to %d: another length", kinds[r->kind], dest);
    check(holds_only(OUT, out, p.bytes, p.size), line, "%s to %d: other bytes", kinds[r->kind], dest);
}

#define EXPECT_REFUSED(...) expect_refused(__LINE__, __VA_ARGS__)

static void expect_refused(int line, const struct request *r, uint16_t dest, size_t out_len, int refusal)
{
    uint8_t *out = lend(OUT, out_len);
    size_t *size = lend(LENGTH, sizeof *size);
    uint8_t result = encode(r, dest, out, out_len, size);

    check(result == refusal, line, "%s to %d: result %d instead of %d", kinds[r->kind], dest, result, refusal);
    check(is_untouched(LENGTH), line, "%s to %d: refused, but a length written", kinds[r->kind], dest);
    check(is_untouched(OUT), line, "%s to %d: refused, but bytes written", kinds[r->kind], dest);
}

/* P1, P2, P5, P6 and P10, and P2 to ID 8, whose check code is a CR; program 0 read, program 2 written and disabled. */
static void test_worked_requests(void)
{
    static const struct {
        struct request request;
        uint16_t dest;
        const char *packet;
    } worked[] = {
        {{.kind = SET, .page = 0x00, .code = 0x10, .value = 100}, 1, "01 30 41 30 45 30 41 02 30 30 31 30 30 30 36 34 03 77 0D"},
        {{.kind = GET, .page = 0x00, .code = 0x10}, 1, "01 30 41 30 43 30 36 02 30 30 31 30 03 04 0D"},
        {{.kind = GET, .page = 0x00, .code = 0x10}, 8, "01 30 48 30 43 30 36 02 30 30 31 30 03 0D 0D"},
        {{.kind = SET, .page = 0x00, .code = 0x10, .value = 100},
         STATION_ALL,
         "01 30 2A 30 45 30 41 02 30 30 31 30 30 30 36 34 03 1C 0D"},
        {{.kind = SET, .page = 0xF0, .code = 0x01, .value = 1}, 1, "01 30 41 30 45 30 41 02 46 30 30 31 30 30 30 31 03 02 0D"},
        {{.kind = POWER_CONTROL, .value = 4}, 1, "01 30 41 30 41 30 43 02 43 32 30 33 44 36 30 30 30 34 03 76 0D"},
        {{.kind = SCHEDULE_READ, .program = {0}}, 1, "01 30 41 30 41 30 38 02 43 32 32 31 30 30 03 7B 0D"},
        {{.kind = SCHEDULE_WRITE, .program = {2, 7, 0, 23, 30, 17, 0x1F, 6}},
         1,
         "01 30 41 30 41 32 36 02 43 32 32 32 30 32 30 37 30 30 31 37 31 45 31 31 31 46 30 36 "
         "30 30 30 30 30 30 30 30 30 30 30 30 30 30 30 30 03 72 0D"},
        {{.kind = SCHEDULE_ENABLE, .program = {2, 0}}, 1, "01 30 41 30 41 30 41 02 43 32 31 35 30 32 30 30 03 07 0D"},
    };

    for (size_t i = 0; i < COUNT(worked); i++)
        EXPECT_PACKET(&worked[i].request, worked[i].dest, STATION_PACKET_ROOM, packet_in_hex(worked[i].packet));
}

/* Every request to 1 to 8 and ALL, into exact room and into more. */
static void test_every_request(void)
{
    for (size_t i = 0; i < COUNT(every_request); i++) {
        const struct request *r = &every_request[i];

        for (uint16_t id = 1; id <= 8; id++)
            EXPECT_PACKET(r, id, STATION_PACKET_ROOM, packet_of('A' + id - 1, '0', r->type, r->text));
        EXPECT_PACKET(r, STATION_ALL, STATION_PACKET_ROOM, packet_of('*', '0', r->type, r->text));
        EXPECT_PACKET(r, STATION_ALL, 200, packet_of('*', '0', r->type, r->text));
    }
}

/* 10: every room below 64, for good and for bad destinations; room 0 also at a null pointer. */
static void test_short_buffers(void)
{
    for (size_t i = 0; i < COUNT(every_request); i++) {
        const struct request *r = &every_request[i];
        size_t *size = lend(LENGTH, sizeof *size);

        CHECK(encode(r, 1, NULL, 0, size) == STATION_REFUSED_SHORT_BUFFER, "%s: null pointer, length 0", kinds[r->kind]);
        CHECK(is_untouched(LENGTH), "%s: null pointer, length 0: a length written", kinds[r->kind]);
        for (size_t room = 0; room < STATION_PACKET_ROOM; room++) {
            EXPECT_REFUSED(r, 1, room, STATION_REFUSED_SHORT_BUFFER);
            EXPECT_REFUSED(r, 9, room, STATION_REFUSED_SHORT_BUFFER);
        }
    }
}

/* Numbers of 16 bits: each to 300, then every 257th, so that both bytes change. */
static uint32_t next(uint32_t number)
{
    return number + (number < 300 ? 1 : 257);
}

/* 20: destinations other than the nine. */
static void test_destinations(void)
{
    for (size_t i = 0; i < COUNT(every_request); i++) {
        for (uint32_t dest = 0; dest <= UINT16_MAX; dest = next(dest)) {
            if ((dest < 1 || dest > 8) && dest != STATION_ALL)
                EXPECT_REFUSED(&every_request[i], (uint16_t)dest, STATION_PACKET_ROOM, STATION_REFUSED_MONITOR_ID);
        }
        EXPECT_REFUSED(&every_request[i], UINT16_MAX, STATION_PACKET_ROOM, STATION_REFUSED_MONITOR_ID);
    }
}

/* A value outside its range is refused with 21, behind 10 and 20. */
static void expect_value_refused(int line, const struct request *r)
{
    expect_refused(line, r, 1, STATION_PACKET_ROOM, STATION_REFUSED_VALUE);
    expect_refused(line, r, STATION_ALL, STATION_PACKET_ROOM, STATION_REFUSED_VALUE);
    expect_refused(line, r, 0, STATION_PACKET_ROOM, STATION_REFUSED_MONITOR_ID);
    expect_refused(line, r, 9, STATION_PACKET_ROOM, STATION_REFUSED_MONITOR_ID);
    expect_refused(line, r, 1, STATION_PACKET_ROOM - 1, STATION_REFUSED_SHORT_BUFFER);
    expect_refused(line, r, 9, 0, STATION_REFUSED_SHORT_BUFFER);
}

static void test_modes(void)
{
    for (uint32_t mode = 0; mode <= UINT16_MAX; mode = next(mode)) {
        struct request r = {.kind = POWER_CONTROL, .value = (uint16_t)mode};

        if (mode != 1 && mode != 4)
            expect_value_refused(__LINE__, &r);
    }
}

/* A date write: a packet where the date is good, else 21. */
static void try_date(const unsigned *d)
{
    struct request r = {.kind = DATE_WRITE};
    char text[20];

    for (int i = 0; i < 7; i++)
        r.date[i] = (uint8_t)d[i];
    snprintf(text, sizeof text, "C212%02X%02X%02X%02X%02X%02X%02X", d[0], d[1], d[2], d[3], d[4], d[5], d[6]);
    if (date_is_good(d))
        EXPECT_PACKET(&r, 1, STATION_PACKET_ROOM, packet_of('A', '0', 'A', text));
    else
        EXPECT_REFUSED(&r, 1, STATION_PACKET_ROOM, STATION_REFUSED_VALUE);
}

/* Every value of each field, the others being good: Saturday, 28 February 2026, 12:30. */
static void test_dates(void)
{
    static const struct request lacking = {.kind = DATE_WRITE, .date = {26, 2, 29, 0, 12, 30, 0}};

    expect_value_refused(__LINE__, &lacking);
    for (int field = 0; field < 7; field++) {
        for (unsigned value = 0; value <= 255; value++) {
            unsigned d[7] = {26, 2, 28, 6, 12, 30, 0};

            d[field] = value;
            try_date(d);
        }
    }
}

/* Every day of the century, the days around each month and the year after the century, with every weekday and one more. */
static void test_century(void)
{
    unsigned good = 0;

    for (unsigned year = 0; year <= 100; year++)
        for (unsigned month = 0; month <= 13; month++)
            for (unsigned day = 0; day <= 32; day++)
                for (unsigned weekday = 0; weekday <= 7; weekday++) {
                    unsigned d[7] = {year, month, day, weekday, 0, 0, 0};

                    try_date(d);
                    good += (unsigned)date_is_good(d);
                }
    CHECK(good == 36525, "%u good dates in a century", good);
}

/* The weekday of every day there is, and none of every other. */
static void test_weekdays(void)
{
    static uint8_t expected[UINT8_MAX + 1][UINT8_MAX + 1][UINT8_MAX + 1];
    unsigned wrong = 0;

    if (at_end) /* buffers lie elsewhere in this round, and none is lent here */
        return;
    memset(expected, STATION_NO_DAY, sizeof expected);
    for (unsigned year = 0; year <= 99; year++)
        for (unsigned month = 1; month <= 12; month++)
            for (unsigned day = 1; day <= 31; day++)
                expected[year][month][day] = (uint8_t)weekday_of(year, month, day);
    for (unsigned year = 0; year <= UINT8_MAX; year++)
        for (unsigned month = 0; month <= UINT8_MAX; month++)
            for (unsigned day = 0; day <= UINT8_MAX; day++)
                wrong += station_weekday((uint8_t)year, (uint8_t)month, (uint8_t)day) != expected[year][month][day];
    CHECK(wrong == 0, "%u other weekdays than the C library's", wrong);
}

static bool is_time(int hour, int minute)
{
    return (hour <= 23 && minute <= 59) || (hour == 24 && minute == 60);
}

/* A schedule write: a packet where its program is good, else 21. */
static void try_program(const uint8_t *p)
{
    struct request r = {.kind = SCHEDULE_WRITE};
    bool is_good = p[0] <= 6 && is_time(p[1], p[2]) && is_time(p[3], p[4]) && (p[5] == 0 || p[5] == 1 || p[5] == 3 || p[5] == 17) &&
                   p[6] <= 0x7F && p[7] <= 7;
    char text[40];

    memcpy(r.program, p, sizeof r.program);
    snprintf(text, sizeof text, "C222%02X%02X%02X%02X%02X%02X%02X%02X%016d", p[0], p[1], p[2], p[3], p[4], p[5], p[6], p[7], 0);
    if (is_good)
        EXPECT_PACKET(&r, 1, STATION_PACKET_ROOM, packet_of('A', '0', 'A', text));
    else
        expect_value_refused(__LINE__, &r);
}

/* Every value of each number, the others being good; and every hour with every minute around their ends. */
static void test_programs(void)
{
    static const uint8_t good[8] = {2, 7, 0, 23, 30, 17, 0x1F, 6}, hours[] = {0, 1, 23, 24, 25, 255},
                         minutes[] = {0, 1, 59, 60, 61, 255};

    for (int number = 0; number < 8; number++) {
        for (int value = 0; value <= 255; value++) {
            uint8_t program[8];

            memcpy(program, good, sizeof program);
            program[number] = (uint8_t)value;
            try_program(program);
        }
    }
    for (size_t i = 0; i < COUNT(hours) * COUNT(minutes); i++) {
        uint8_t hour = hours[i % COUNT(hours)], minute = minutes[i / COUNT(hours)];

        try_program((const uint8_t[8]){6, hour, minute, 23, 59, 0, 0, 0});
        try_program((const uint8_t[8]){0, 24, 60, hour, minute, 3, 0x7F, 7});
        try_program((const uint8_t[8]){3, hour, minute, hour, minute, 1, 1, 4});
    }
}

/* Every program that a number can name, read, enabled and disabled; and every enable. */
static void test_program_numbers(void)
{
    for (int program = 0; program <= 255; program++) {
        struct request read = {.kind = SCHEDULE_READ, .program = {(uint8_t)program}};
        char text[10];

        snprintf(text, sizeof text, "C221%02X", program);
        if (program <= 6)
            EXPECT_PACKET(&read, 1, STATION_PACKET_ROOM, packet_of('A', '0', 'A', text));
        else
            expect_value_refused(__LINE__, &read);
        for (int enable = 0; enable <= 255; enable += enable < 3 ? 1 : 63) {
            struct request write = {.kind = SCHEDULE_ENABLE, .program = {(uint8_t)program, (uint8_t)enable}};

            snprintf(text, sizeof text, "C215%02X%02X", program, enable);
            if (program <= 6 && enable <= 1)
                EXPECT_PACKET(&write, 1, STATION_PACKET_ROOM, packet_of('A', '0', 'A', text));
            else
                expect_value_refused(__LINE__, &write);
        }
    }
}

/* Tags of 17 bytes and more, those included whose length in one byte would be 0 to 16. */
static void test_long_tags(void)
{
    static const char longest[ZONE];

    for (size_t n = 17; n <= ZONE; n++) {
        struct request r = {.kind = TAG_WRITE, .tag_len = n, .tag = longest};

        expect_value_refused(__LINE__, &r);
    }
}

/* A null pointer with length 0 is a tag of no bytes. */
static void test_null_tag(void)
{
    struct packet p = packet_of('A', '0', 'A', "F011");
    uint8_t *out = lend(OUT, STATION_PACKET_ROOM);
    size_t *size = lend(LENGTH, sizeof *size);

    CHECK(station_encode_tag_write(1, NULL, 0, out, STATION_PACKET_ROOM, size) == 0, "null tag: refused");
    CHECK(*size == p.size && holds_only(OUT, out, p.bytes, p.size), "null tag: other bytes");
}

/* Replies */

struct reply {
    char type;
    const char *text;
    int kind;
    size_t numbers_len; /* without the sender's ID */
    uint16_t numbers[8];
    size_t count;
    const char *bytes;
};

static const struct reply every_reply[] = {
    {'B', "BE", STATION_REPLY_NULL, 0, {0}, 0, ""},
    {'D', "01F0EC01FEDCBA98", STATION_REPLY_GET, 6, {1, 0xF0, 0xEC, 1, 0xFEDC, 0xBA98}, 0, ""},
    {'D', "0000100000640032", STATION_REPLY_GET, 6, {0, 0x00, 0x10, 0, 0x64, 0x32}, 0, ""},
    {'F', "01F0EC01FEDCBA98", STATION_REPLY_SET, 6, {1, 0xF0, 0xEC, 1, 0xFEDC, 0xBA98}, 0, ""},
    {'F', "0000600000110004", STATION_REPLY_SET, 6, {0, 0x00, 0x60, 0, 17, 4}, 0, ""},
    {'B', "0200D60000040001", STATION_REPLY_POWER_READ, 2, {0, 1}, 0, ""},
    {'B', "0201D60000040002", STATION_REPLY_POWER_READ, 2, {1, 2}, 0, ""},
    {'B', "0200D60000040004", STATION_REPLY_POWER_READ, 2, {0, 4}, 0, ""},
    {'B', "00C203D60001", STATION_REPLY_POWER_CONTROL, 2, {0, 1}, 0, ""},
    {'B', "01C203D6FFFE", STATION_REPLY_POWER_CONTROL, 2, {1, 0xFFFE}, 0, ""},
    {'B', "C31100010106000000", STATION_REPLY_DATE_READ, 7, {0, 1, 1, 6, 0, 0, 0}, 0, ""},
    {'B', "C311FFFEFDFCFBFAF9", STATION_REPLY_DATE_READ, 7, {255, 254, 253, 252, 251, 250, 249}, 0, ""},
    {'B', "C31200630C1F06173B00", STATION_REPLY_DATE_WRITE, 8, {0, 99, 12, 31, 6, 23, 59, 0}, 0, ""},
    {'B', "C312010203040506A0B0", STATION_REPLY_DATE_WRITE, 8, {1, 2, 3, 4, 5, 6, 0xA0, 0xB0}, 0, ""},
    {'B', "C316", STATION_REPLY_SERIAL, 0, {0}, 0, ""},
    {'B', "C31630313233343536373839414243444546", STATION_REPLY_SERIAL, 0, {0}, 16, "0123456789ABCDEF"},
    {'B', "C317503430", STATION_REPLY_MODEL, 0, {0}, 3, "P40"},
    {'B', "F110000DFF41", STATION_REPLY_TAG, 0, {0}, 4, "\x00\x0D\xFF\x41"},
    {'B', "F11201", STATION_REPLY_FORMER_TAG, 0, {0}, 1, "\x01"},
    {'B', "F11100", STATION_REPLY_TAG_WRITE, 1, {0}, 0, ""},
    {'B', "F11101414243", STATION_REPLY_TAG_WRITE, 1, {1}, 3, "ABC"},
    {'B', "F1110030313233343536373839414243444546", STATION_REPLY_TAG_WRITE, 1, {0}, 16, "0123456789ABCDEF"},
    {'B', "C32130313233343536373839414243444546", STATION_REPLY_SCHEDULE_READ, 0, {0}, 16, "0123456789ABCDEF"},
    {'B', "C3220030313233343536373839414243444546", STATION_REPLY_SCHEDULE_WRITE, 1, {0}, 16, "0123456789ABCDEF"},
    {'B', "C3220130313233343536373839414243444546", STATION_REPLY_SCHEDULE_WRITE, 1, {1}, 16, "0123456789ABCDEF"},
    {'B', "C315000201", STATION_REPLY_SCHEDULE_ENABLE, 3, {0, 2, 1}, 0, ""},
    {'B', "C31501FFFE", STATION_REPLY_SCHEDULE_ENABLE, 3, {1, 255, 254}, 0, ""},
};

struct reading {
    uint16_t *numbers;
    uint8_t *bytes;
    size_t *count;
    int result;
};

static struct reading read_lent(const struct packet *p, size_t numbers_len, size_t bytes_len)
{
    const uint8_t *packet = lend_copy(PACKET, p->bytes, p->size);
    struct reading r = {.numbers = lend(NUMBERS, numbers_len * sizeof *r.numbers)};

    r.bytes = lend(BYTES, bytes_len);
    r.count = lend(LENGTH, sizeof *r.count);
    r.result = station_read(packet, p->size, r.numbers, numbers_len, r.bytes, bytes_len, r.count);
    return r;
}

/* One check of a reading; a failure shows the packet. */
static void check_reading(int good, int line, const struct packet *p, int result, int expected, const char *what)
{
    char hex[2 * LONGEST + 1] = "";

    for (size_t i = 0; !good && i < p->size; i++)
        snprintf(hex + 2 * i, 3, "%02X", p->bytes[i]);
    check(good, line, "packet %s: result %d, %d expected: %s", hex, result, expected, what);
}

#define EXPECT_REPLY(...) expect_reply(__LINE__, __VA_ARGS__)

static void expect_reply(int line, struct packet p, const struct reply *reply, uint16_t sender, size_t more)
{
    struct reading r = read_lent(&p, STATION_NUMBERS_ROOM + more, STATION_BYTES_ROOM + more);
    uint16_t numbers[STATION_NUMBERS_ROOM] = {sender};
    size_t numbers_size = (1 + reply->numbers_len) * sizeof *numbers;
    int kind = reply->kind;

    memcpy(numbers + 1, reply->numbers, sizeof reply->numbers);
    check_reading(r.result == kind, line, &p, r.result, kind, "another result");
    check_reading(holds_only(LENGTH, r.count, &reply->count, sizeof reply->count), line, &p, r.result, kind, "another count");
    check_reading(holds_only(NUMBERS, r.numbers, numbers, numbers_size), line, &p, r.result, kind, "other numbers");
    check_reading(holds_only(BYTES, r.bytes, reply->bytes, reply->count), line, &p, r.result, kind, "other bytes");
}

#define EXPECT_UNREAD(...) expect_unread(__LINE__, __VA_ARGS__)

static void expect_unread(int line, struct packet p, size_t numbers_len, size_t bytes_len, int refusal)
{
    struct reading r = read_lent(&p, numbers_len, bytes_len);

    check_reading(r.result == refusal, line, &p, r.result, refusal, "another result");
    check_reading(is_untouched(LENGTH), line, &p, r.result, refusal, "a count written");
    check_reading(is_untouched(NUMBERS), line, &p, r.result, refusal, "numbers written");
    check_reading(is_untouched(BYTES), line, &p, r.result, refusal, "bytes written");
}

#define EXPECT_PACKET_REFUSED(p, refusal) EXPECT_UNREAD((p), STATION_NUMBERS_ROOM, STATION_BYTES_ROOM, (refusal))

/* P3, P4, P7, P8 and P9; program 0 of an unused board, and program 2 written and disabled. */
static void test_worked_replies(void)
{
    static const struct {
        const char *packet;
        struct reply reply;
    } worked[] = {
        {"01 30 30 41 44 31 32 02 30 30 30 30 31 30 30 30 30 30 36 34 30 30 33 32 03 05 0D",
         {.text = "P3", .kind = STATION_REPLY_GET, .numbers_len = 6, .numbers = {0, 0x00, 0x10, 0, 100, 50}}},
        {"01 30 30 41 46 31 32 02 30 30 30 30 31 30 30 30 30 30 36 34 30 30 35 30 03 03 0D",
         {.text = "P4", .kind = STATION_REPLY_SET, .numbers_len = 6, .numbers = {0, 0x00, 0x10, 0, 100, 80}}},
        {"01 30 30 41 46 31 32 02 30 30 46 30 30 31 30 31 30 30 30 31 30 30 30 31 03 73 0D",
         {.text = "P7", .kind = STATION_REPLY_SET, .numbers_len = 6, .numbers = {0, 0xF0, 0x01, 1, 1, 1}}},
        {"01 30 30 41 42 30 34 02 42 45 03 01 0D", {.text = "P8", .kind = STATION_REPLY_NULL}},
        {"01 30 30 41 42 31 32 02 30 32 30 30 44 36 30 30 30 30 30 34 30 30 30 31 03 74 0D",
         {.text = "P9", .kind = STATION_REPLY_POWER_READ, .numbers_len = 2, .numbers = {0, 1}}},
        {"01 30 30 41 42 32 36 02 43 33 32 31 30 30 31 38 33 43 31 38 33 43 30 30 30 30 30 30 "
         "30 30 30 30 30 30 30 30 30 30 30 30 30 30 30 30 03 75 0D",
         {.text = "program 0",
          .kind = STATION_REPLY_SCHEDULE_READ,
          .count = 16,
          .bytes = "\0\x18\x3C\x18\x3C\0\0\0\0\0\0\0\0\0\0"}},
        {"01 30 30 41 42 32 38 02 43 33 32 32 30 30 30 32 30 37 30 30 31 37 31 45 31 31 31 46 30 36 "
         "30 30 30 30 30 30 30 30 30 30 30 30 30 30 30 30 03 7E 0D",
         {.text = "program 2",
          .kind = STATION_REPLY_SCHEDULE_WRITE,
          .numbers_len = 1,
          .numbers = {0},
          .count = 16,
          .bytes = "\x02\x07\0\x17\x1E\x11\x1F\x06\0\0\0\0\0\0\0"}},
        {"01 30 30 41 42 30 43 02 43 33 31 35 30 30 30 32 30 30 03 07 0D",
         {.text = "disabled", .kind = STATION_REPLY_SCHEDULE_ENABLE, .numbers_len = 3, .numbers = {0, 2, 0}}},
    };

    for (size_t i = 0; i < COUNT(worked); i++)
        EXPECT_REPLY(packet_in_hex(worked[i].packet), &worked[i].reply, 1, 0);
}

/* Every reply from 1 to 8, into exact room and into more. */
static void test_every_reply(void)
{
    for (size_t i = 0; i < COUNT(every_reply); i++) {
        const struct reply *reply = &every_reply[i];

        for (uint16_t id = 1; id <= 8; id++) {
            EXPECT_REPLY(packet_of('0', 'A' + id - 1, reply->type, reply->text), reply, id, 0);
            EXPECT_REPLY(packet_of('0', 'A' + id - 1, reply->type, reply->text), reply, id, 20);
        }
    }
}

/* 10, for a good reply and for no packet at all. */
static void test_short_rooms(void)
{
    struct packet good = reply_of('B', "BE"), none = {0};
    size_t *count;

    for (size_t n = 0; n < STATION_NUMBERS_ROOM; n++) {
        EXPECT_UNREAD(good, n, STATION_BYTES_ROOM, STATION_REFUSED_SHORT_BUFFER);
        EXPECT_UNREAD(none, n, STATION_BYTES_ROOM, STATION_REFUSED_SHORT_BUFFER);
    }
    for (size_t n = 0; n < STATION_BYTES_ROOM; n++) {
        EXPECT_UNREAD(good, STATION_NUMBERS_ROOM, n, STATION_REFUSED_SHORT_BUFFER);
        EXPECT_UNREAD(none, STATION_NUMBERS_ROOM, n, STATION_REFUSED_SHORT_BUFFER);
    }
    count = lend(LENGTH, sizeof *count);
    CHECK(station_read(NULL, 0, NULL, 0, NULL, 0, count) == STATION_REFUSED_SHORT_BUFFER, "null pointers, lengths 0");
    CHECK(is_untouched(LENGTH), "null pointers, lengths 0: a count written");
}

/* A null pointer with length 0 is a packet of no bytes. */
static void test_null_packet(void)
{
    uint16_t *numbers = lend(NUMBERS, STATION_NUMBERS_ROOM * sizeof *numbers);
    uint8_t *bytes = lend(BYTES, STATION_BYTES_ROOM);
    size_t *count = lend(LENGTH, sizeof *count);
    uint8_t result = station_read(NULL, 0, numbers, STATION_NUMBERS_ROOM, bytes, STATION_BYTES_ROOM, count);

    CHECK(result == STATION_REFUSED_REPLY_SHORT, "null packet: result %d instead of 30", result);
    CHECK(is_untouched(NUMBERS) && is_untouched(BYTES) && is_untouched(LENGTH), "null packet: refused, but something written");
}

/* What the first bytes tell of a packet's length, at a guarded page. */
static size_t size_told(const struct packet *p, size_t first_len)
{
    return station_reply_size(lend_copy(PACKET, p->bytes, first_len), first_len);
}

/* Every reply: 0 up to its sixth byte, its length from the seventh on, and the same with any bytes behind it. */
static void test_reply_sizes(void)
{
    for (size_t i = 0; i < COUNT(every_reply); i++) {
        struct packet p = reply_of(every_reply[i].type, every_reply[i].text);

        for (size_t n = 0; n <= LONGEST; n++) {
            size_t told = size_told(&p, n);

            CHECK(told == (n < STATION_HEADER_BYTES ? 0 : p.size), "%s: %zu bytes told by its first %zu", every_reply[i].text, told,
                  n);
        }
    }
    CHECK(station_reply_size(NULL, 0) == 0, "a length told by no bytes");
}

/* All 65536 pairs of length digits, in a header of which no other byte is good. */
static void test_sizes_by_digits(void)
{
    struct packet p = {0};

    for (unsigned pair = 0; pair < 0x10000; pair++) {
        char digits[3] = {(char)(pair >> 8), (char)pair, '\0'};
        bool good = strspn(digits, "0123456789ABCDEFabcdef") == 2;
        unsigned long l = good ? strtoul(digits, NULL, 16) : 0;
        size_t told;

        memcpy(p.bytes + 5, digits, 2);
        told = size_told(&p, STATION_HEADER_BYTES);
        CHECK(told == (l >= 4 && l <= 64 ? l + 9 : 0), "length digits %02X %02X: %zu told", pair >> 8, pair & 0xFF, told);
        CHECK(told <= STATION_REPLY_MOST, "length digits %02X %02X: %zu told", pair >> 8, pair & 0xFF, told);
    }
}

/* 30: the first 0 to 12 bytes of every reply; 32: its first 13 and more. */
static void test_cut_packets(void)
{
    for (size_t i = 0; i < COUNT(every_reply); i++) {
        struct packet whole = reply_of(every_reply[i].type, every_reply[i].text), cut = whole;

        for (cut.size = 0; cut.size < whole.size; cut.size++)
            EXPECT_PACKET_REFUSED(cut, cut.size < 13 ? STATION_REFUSED_REPLY_SHORT : STATION_REFUSED_REPLY_LENGTH);
        for (cut.size = whole.size + 1; cut.size <= LONGEST; cut.size++)
            EXPECT_PACKET_REFUSED(cut, STATION_REFUSED_REPLY_LENGTH);
    }
}

/* The refusal of a packet with one byte changed follows from the place. A length digit in the other case keeps the length. */
static int refusal_of_change(size_t place, uint8_t from, uint8_t to, size_t size)
{
    if (place < 3)
        return STATION_REFUSED_REPLY_HEADER;
    if (place == 3)
        return to >= 'A' && to <= 'H' ? STATION_REFUSED_REPLY_CHECK_CODE : STATION_REFUSED_REPLY_HEADER;
    if (place == 4)
        return to == 'B' || to == 'D' || to == 'F' ? STATION_REFUSED_REPLY_CHECK_CODE : STATION_REFUSED_REPLY_HEADER;
    if (place < 7)
        return tolower(from) == to ? STATION_REFUSED_REPLY_CHECK_CODE : STATION_REFUSED_REPLY_LENGTH;
    return place == size - 1 ? STATION_REFUSED_REPLY_NO_RETURN : STATION_REFUSED_REPLY_CHECK_CODE;
}

/* Every reply with each byte changed to each of the 255 others. */
static void test_changed_bytes(void)
{
    for (size_t i = 0; i < COUNT(every_reply); i++) {
        const struct packet good = reply_of(every_reply[i].type, every_reply[i].text);

        for (size_t place = 0; place < good.size; place++) {
            for (int change = 1; change <= 255; change++) {
                struct packet p = good;

                p.bytes[place] ^= (uint8_t)change;
                EXPECT_PACKET_REFUSED(p, refusal_of_change(place, good.bytes[place], p.bytes[place], p.size));
            }
        }
    }
}

/* Faults that refuse a Get reply, each behind its number; several at once give the first. */
static struct packet faulty(unsigned faults)
{
    struct packet p = reply_of('D', faults & 16 ? "0200100000640032" : "0000100000640032");

    if (faults & 1)
        p.bytes[1] = '1';
    if (faults & 2)
        p.bytes[6]++;
    if (faults & 4)
        p.bytes[p.size - 1] = 0x0A;
    mend_check_code(&p);
    if (faults & 8)
        p.bytes[p.size - 2] ^= 1;
    return p;
}

static void test_order_of_refusals(void)
{
    static const int refusals[] = {STATION_REFUSED_REPLY_HEADER, STATION_REFUSED_REPLY_LENGTH, STATION_REFUSED_REPLY_NO_RETURN,
                                   STATION_REFUSED_REPLY_CHECK_CODE, STATION_REFUSED_REPLY_MESSAGE};

    for (unsigned faults = 1; faults < 32; faults++) {
        struct packet p = faulty(faults), cut = p;
        size_t first = 0;

        while (!(faults >> first & 1))
            first++;
        EXPECT_PACKET_REFUSED(p, refusals[first]);
        EXPECT_UNREAD(p, STATION_NUMBERS_ROOM - 1, STATION_BYTES_ROOM, STATION_REFUSED_SHORT_BUFFER);
        EXPECT_UNREAD(p, STATION_NUMBERS_ROOM, STATION_BYTES_ROOM - 1, STATION_REFUSED_SHORT_BUFFER);
        cut.size = 12;
        EXPECT_PACKET_REFUSED(cut, STATION_REFUSED_REPLY_SHORT);
    }
}

/* 31 behind a mended check code: each header byte over all its values. */
static void test_headers(void)
{
    static const char *good[] = {"\x01", "0", "0", "ABCDEFGH", "BDF"};

    for (size_t place = 0; place < COUNT(good); place++) {
        for (int byte = 0; byte <= 255; byte++) {
            struct packet p = reply_of('B', "BE");
            int is_good = byte != 0 && strchr(good[place], byte) != NULL;

            p.bytes[place] = (uint8_t)byte;
            mend_check_code(&p);
            if (!is_good)
                EXPECT_PACKET_REFUSED(p, STATION_REFUSED_REPLY_HEADER);
            else if (place == 4 && byte != 'B')
                EXPECT_PACKET_REFUSED(p, STATION_REFUSED_REPLY_MESSAGE);
        }
    }
}

/* 32: L is 4 to 64, and the packet has L + 9 bytes. */
static void test_lengths(void)
{
    for (int l = 3; l <= 80; l++) {
        char text[80] = {0};
        struct packet p;

        memset(text, 'A', (size_t)l - 2);
        p = reply_of('B', text);
        if (l == 3)
            EXPECT_PACKET_REFUSED(p, STATION_REFUSED_REPLY_SHORT);
        else
            EXPECT_PACKET_REFUSED(p, l <= 64 ? STATION_REFUSED_REPLY_MESSAGE : STATION_REFUSED_REPLY_LENGTH);
    }
}

/* 35: texts that are nearly replies. */
static void test_near_replies(void)
{
    static const struct {
        char type;
        const char *text;
    } near[] = {
        {'B', "BF"}, {'B', "be"}, {'B', "BE0"}, {'D', "BE"}, {'F', "BE"},
        {'B', "0000100000640032"}, {'D', "000010000064003"}, {'D', "00001000006400320"}, {'F', "000010000064003G"},
        {'D', "0200100000640032"}, {'F', "0000100200640032"}, {'D', "000010000064003g"}, {'F', "A000100000640032"},
        {'B', "0202D60000040001"}, {'B', "0300D60000040001"}, {'B', "0200D70000040001"}, {'B', "0200D60100040001"},
        {'B', "0200D60000050001"}, {'B', "0200D60000040000"}, {'B', "0200D60000040003"}, {'B', "0200D60000040005"},
        {'B', "0200D60000040101"}, {'B', "0200D6000004000"}, {'B', "0200D600000400010"}, {'D', "0200D60000040001"},
        {'B', "02C203D60001"}, {'B', "00C203D70001"}, {'B', "00C203D6000G"}, {'B', "00C203D6001"}, {'B', "00C203D6000100"},
        {'B', "C203D60001"},
        {'B', "C3110001010600000"}, {'B', "C311000101060000"}, {'B', "C3110001010600000000"}, {'D', "C31100010106000000"},
        {'B', "C31202630C1F06173B00"}, {'B', "C31200630C1F06173B"}, {'B', "C31200630C1F06173B0000"},
        {'B', "C3163"}, {'B', "C31630g1"}, {'B', "C3183031"}, {'B', "C316303132333435363738394142434445464700"},
        {'B', "C3173031323334353637383941424344454647"}, {'B', "F1103031323334353637383941424344454647"},
        {'B', "F1123031323334353637383941424344454647"}, {'B', "F111"}, {'B', "F1110"}, {'B', "F11102"}, {'B', "F111004"},
        {'B', "F111003031323334353637383941424344454647"}, {'B', "F113"}, {'B', "F010"}, {'B', "C211"}, {'B', "01D6"},
        {'B', "C321"}, {'B', "C321303132333435363738394142434445"}, {'B', "C3213031323334353637383941424344454647"},
        {'B', "C3213031323334353637383941424344454"}, {'B', "C3213031323334353637383941424344454g"},
        {'D', "C32130313233343536373839414243444546"}, {'B', "C22130313233343536373839414243444546"},
        {'B', "C32230313233343536373839414243444546"}, {'B', "C3220230313233343536373839414243444546"},
        {'B', "C322003031323334353637383941424344454647"}, {'B', "C33E0030313233343536373839414243444546"},
        {'B', "C315"}, {'B', "C31500"}, {'B', "C3150002"}, {'B', "C31500020"}, {'B', "C31502020"}, {'B', "C315020200"},
        {'B', "C31500020100"}, {'B', "C315000G01"}, {'B', "C215000201"},
    };

    for (size_t i = 0; i < COUNT(near); i++)
        EXPECT_PACKET_REFUSED(reply_of(near[i].type, near[i].text), STATION_REFUSED_REPLY_MESSAGE);
}

/* Where the name in a reply's text begins and ends; Get and Set replies have none. */
static void find_name(const struct reply *reply, size_t *begin, size_t *end)
{
    *begin = reply->kind == STATION_REPLY_POWER_READ ? 4 : reply->kind == STATION_REPLY_POWER_CONTROL ? 2 : 0;
    *end = reply->kind == STATION_REPLY_POWER_CONTROL ? 8 : reply->kind == STATION_REPLY_POWER_READ ? 6 : 4;
    if (reply->type != 'B')
        *end = 0;
    else if (reply->kind == STATION_REPLY_NULL)
        *end = 2;
}

/* Every spelling of a reply's digits with its own check code is read as the reply; a letter of its name in small is 35. */
static void try_spellings(const struct reply *reply)
{
    const struct packet capitals = reply_of(reply->type, reply->text);
    size_t letters[LONGEST], count = 0, begin, end;

    find_name(reply, &begin, &end);
    for (size_t place = 5; place < capitals.size - 3; place++) {
        struct packet p = capitals;
        bool is_letter = strchr("ABCDEF", capitals.bytes[place]) != NULL;

        if (is_letter && place >= 8 + begin && place < 8 + end) {
            p.bytes[place] = (uint8_t)tolower(p.bytes[place]);
            mend_check_code(&p);
            EXPECT_PACKET_REFUSED(p, STATION_REFUSED_REPLY_MESSAGE);
        } else if (is_letter) {
            letters[count++] = place;
        }
    }
    CHECK(count <= 13, "%s: %zu letters", reply->text, count);
    for (size_t mask = 0; mask < (size_t)1 << count && count <= 13; mask++) {
        struct packet p = capitals;

        for (size_t i = 0; i < count; i++)
            p.bytes[letters[i]] += mask >> i & 1 ? 'a' - 'A' : 0;
        mend_check_code(&p);
        EXPECT_REPLY(p, reply, 1, 0);
    }
}

static void test_spellings(void)
{
    static const struct reply erase = {'D', "00F0010100010000", STATION_REPLY_GET, 6, {0, 0xF0, 0x01, 1, 1, 0}, 0, ""};
    static const char *const types = "bdf";

    for (size_t i = 0; i < COUNT(every_reply); i++)
        try_spellings(&every_reply[i]);
    try_spellings(&erase);
    for (size_t i = 0; types[i] != '\0'; i++)
        EXPECT_PACKET_REFUSED(reply_of(types[i], "BE"), STATION_REFUSED_REPLY_HEADER);
}

/* Every byte that is no digit, in each place of a reply's text. */
static void try_bad_digits(const struct reply *reply)
{
    for (size_t place = 0; place < strlen(reply->text); place++) {
        for (int b = 0; b <= 255; b++) {
            struct packet p = reply_of(reply->type, reply->text);

            if (b != 0 && strchr("0123456789ABCDEFabcdef", b) != NULL)
                continue;
            p.bytes[8 + place] = (uint8_t)b;
            mend_check_code(&p);
            EXPECT_PACKET_REFUSED(p, STATION_REFUSED_REPLY_MESSAGE);
        }
    }
}

/* Twenty-two bytes are digits in each place of a value. With any other byte the text is no reply's: names consist of digits too. */
static void test_digits(void)
{
    for (size_t i = 0; i < COUNT(every_reply); i++)
        try_bad_digits(&every_reply[i]);
    for (unsigned place = 0; place < 4; place++) {
        for (unsigned digit = 0; digit < 16; digit++) {
            struct reply reply = every_reply[1];
            char text[20];

            reply.numbers[5] = (uint16_t)(digit << 4 * place);
            snprintf(text, sizeof text, "%.12s%04X", reply.text, reply.numbers[5]);
            EXPECT_REPLY(reply_of(reply.type, text), &reply, 1, 0);
            snprintf(text, sizeof text, "%.12s%04x", reply.text, reply.numbers[5]);
            EXPECT_REPLY(reply_of(reply.type, text), &reply, 1, 0);
        }
    }
}

/* 35: STX and ETX belong to the message, so that another byte there is no reply, whatever the check code. */
static void test_message_ends(void)
{
    for (size_t i = 0; i < COUNT(every_reply); i++) {
        for (int change = 1; change <= 255; change++) {
            struct packet stx = reply_of(every_reply[i].type, every_reply[i].text), etx = stx;

            stx.bytes[7] ^= (uint8_t)change;
            mend_check_code(&stx);
            EXPECT_PACKET_REFUSED(stx, STATION_REFUSED_REPLY_MESSAGE);
            etx.bytes[etx.size - 3] ^= (uint8_t)change;
            mend_check_code(&etx);
            EXPECT_PACKET_REFUSED(etx, STATION_REFUSED_REPLY_MESSAGE);
        }
    }
}

/* What the check code can't see: two bytes exchanged, and two changed by the same difference, the code itself among them. */
static void test_unseen_changes(void)
{
    static const struct {
        size_t first, second;
        uint8_t difference;
        uint16_t value;
    } unseen[] = {{22, 23, '3' ^ '2', 0x23}, {22, 23, '3' ^ '7', 0x76}, {23, 25, '2' ^ '9', 0x39}};

    for (size_t i = 0; i < COUNT(unseen); i++) {
        struct reply reply = every_reply[2];
        struct packet p = reply_of(reply.type, reply.text);

        p.bytes[unseen[i].first] ^= unseen[i].difference;
        p.bytes[unseen[i].second] ^= unseen[i].difference;
        reply.numbers[5] = unseen[i].value;
        EXPECT_REPLY(p, &reply, 1, 0);
    }
}

static const char *volatile subject;

#define RUN(test) (subject = #test, test())

static void test_all(void)
{
    RUN(test_worked_requests);
    RUN(test_every_request);
    RUN(test_short_buffers);
    RUN(test_destinations);
    RUN(test_modes);
    RUN(test_dates);
    RUN(test_century);
    RUN(test_weekdays);
    RUN(test_programs);
    RUN(test_program_numbers);
    RUN(test_long_tags);
    RUN(test_null_tag);
    RUN(test_worked_replies);
    RUN(test_every_reply);
    RUN(test_short_rooms);
    RUN(test_null_packet);
    RUN(test_reply_sizes);
    RUN(test_sizes_by_digits);
    RUN(test_cut_packets);
    RUN(test_changed_bytes);
    RUN(test_order_of_refusals);
    RUN(test_headers);
    RUN(test_lengths);
    RUN(test_near_replies);
    RUN(test_digits);
    RUN(test_spellings);
    RUN(test_message_ends);
    RUN(test_unseen_changes);
}

/* Ends the program where the library touched a guarded page. */
static void touched_outside(int signal)
{
    static const char said[] = ": memory outside a lent buffer touched\n";

    (void)signal;
    if (write(STDERR_FILENO, subject, strlen(subject)) < 0 || write(STDERR_FILENO, said, sizeof said - 1) < 0)
        _exit(2);
    _exit(1);
}

int main(void)
{
    make_pages();
    signal(SIGSEGV, touched_outside);
    for (at_end = 0; at_end <= 1; at_end++)
        test_all();
    if (failures > 0) {
        fprintf(stderr, "station: %lu of %lu checks failed\n", failures, checks);
        return 1;
    }
    printf("station: %lu checks passed\n", checks);
    return 0;
}
