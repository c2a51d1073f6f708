/*
 * Tries every function of board.h. What is expected is worked out here from document 01, and of programs, marks, days and digits
 * from document 02; of a request in small letters it is what the same request in capitals did. The C library says which days there
 * are, and their weekdays.
 *
 * No sanitizer sees into the library, so in one round every buffer lent to it begins right behind a page that may not be touched,
 * and in another it ends right before one: a read or a write there ends the program. What lies on the other side is compared.
 *
 * Around every call, but for those that try all days of a century, is checked what holds of each: the places for a length and a
 * refusal are written exactly where there is one, a reply fills the start of the buffer and nothing else, and where nothing may
 * change, no byte of state or store does.
 */
#define _DEFAULT_SOURCE /* MAP_ANONYMOUS, timegm */

#include "board.h"
#include "calendar.h"

#include <ctype.h>
#include <signal.h>
#include <stdarg.h>
#include <stdio.h>
#include <stdlib.h>
#include <string.h>
#include <sys/mman.h>
#include <unistd.h>

#define COUNT(array) (sizeof(array) / sizeof(array)[0])

/* Counting */

enum { FAILURES_SHOWN = 20 };

static unsigned long checks, failures;

#define CHECK(good, ...) check((good), __LINE__, __VA_ARGS__)

/* One check; a failure shows its line and the case that `format` tells. */
__attribute__((format(printf, 3, 4))) static void check(int good, int line, const char *format, ...)
{
    va_list values;

    checks++;
    if (good)
        return;
    if (++failures > FAILURES_SHOWN)
        return;
    fprintf(stderr, "%s:%d: ", __FILE__, line);
    va_start(values, format);
    vfprintf(stderr, format, values);
    va_end(values);
    fputc('\n', stderr);
}

/* Random numbers from a fixed seed */

static const uint64_t seed = 0x5EED0004;
static uint64_t random_state;

static uint64_t random_number(void)
{
    uint64_t z = random_state += 0x9E3779B97F4A7C15;

    z = (z ^ z >> 30) * 0xBF58476D1CE4E5B9;
    z = (z ^ z >> 27) * 0x94D049BB133111EB;
    return z ^ z >> 31;
}

static void random_bytes(uint8_t *bytes, size_t n)
{
    for (size_t i = 0; i < n; i++)
        bytes[i] = (uint8_t)random_number();
}

/* Lent memory */

enum page { STATE, STORE, REPLY, SIZE, REFUSAL, SERIAL, MODEL, PAGES };

/* So many bytes at the guarded edge of a page are filled with the pattern and compared. */
enum { ZONE = 320 };

static uint8_t pattern[ZONE];
static uint8_t *pages[PAGES];
static size_t page_size;
static int at_end; /* whether buffers end right before the guarded page behind, or begin right behind the one in front */

static void make_pages(void)
{
    for (size_t i = 0; i < ZONE; i++)
        pattern[i] = (uint8_t)(0xC3 + 37 * i);
    page_size = (size_t)sysconf(_SC_PAGESIZE);
    for (int page = 0; page < PAGES; page++) {
        uint8_t *three = mmap(NULL, 3 * page_size, PROT_NONE, MAP_PRIVATE | MAP_ANONYMOUS, -1, 0);

        if (three == MAP_FAILED || mprotect(three + page_size, page_size, PROT_READ | PROT_WRITE) != 0) {
            perror("board_from_c");
            exit(1);
        }
        pages[page] = three + page_size;
    }
}

static uint8_t *zone(enum page page)
{
    return at_end ? pages[page] + page_size - ZONE : pages[page];
}

/* A buffer of n bytes at the edge of its page, filled with the pattern. */
static void *lend(enum page page, size_t n)
{
    memcpy(zone(page), pattern, ZONE);
    return at_end ? zone(page) + ZONE - n : zone(page);
}

static uint8_t *lend_copy(enum page page, const void *bytes, size_t n)
{
    uint8_t *lent = lend(page, n);

    if (n > 0)
        memcpy(lent, bytes, n);
    return lent;
}

/* Whether n bytes at `lent` are as given and all else that was filled still has the pattern. */
static int holds_only(enum page page, const void *lent, const void *bytes, size_t n)
{
    const uint8_t *first = zone(page), *at = lent;
    size_t place = (size_t)(at - first), behind = place + n;

    return memcmp(first, pattern, place) == 0 && (n == 0 || memcmp(at, bytes, n) == 0) &&
           memcmp(first + behind, pattern + behind, ZONE - behind) == 0;
}

/* Whether nothing was written there. */
static int is_untouched(enum page page)
{
    return holds_only(page, zone(page), NULL, 0);
}

/* Whether nothing beside the n bytes at `lent` was written. */
static int is_untouched_beside(enum page page, const void *lent, size_t n)
{
    return holds_only(page, lent, lent, n);
}

/* Packets, put together here */

enum { LONGEST = 300 };

struct packet {
    size_t size;
    uint8_t bytes[LONGEST];
};

static void mend_check_code(struct packet *p)
{
    uint8_t code = 0;

    for (size_t i = 1; i < p->size - 2; i++)
        code ^= p->bytes[i];
    p->bytes[p->size - 2] = code;
}

static struct packet packet_of(int destination, int source, int type, const char *text)
{
    struct packet p = {.size = strlen(text) + 11};
    char header[8];

    snprintf(header, sizeof header, "%c0%c%c%c%02X", 0x01, destination, source, type, (unsigned)(strlen(text) + 2) & 0xFF);
    memcpy(p.bytes, header, 7);
    p.bytes[7] = 0x02;
    memcpy(p.bytes + 8, text, strlen(text));
    p.bytes[p.size - 3] = 0x03;
    p.bytes[p.size - 1] = 0x0D;
    mend_check_code(&p);
    return p;
}

/* The bytes that a line of hexadecimal numbers names. */
static struct packet packet_in_hex(const char *hex)
{
    struct packet p = {0};
    char *end;

    for (; *hex != '\0'; hex = end)
        p.bytes[p.size++] = (uint8_t)strtoul(hex, &end, 16);
    return p;
}

/* Stores */

/* The fields of bytes 1 to 11 by their widths, most significant bit first, with their first and last values. */
enum field {
    BACKLIGHT,
    INPUT,
    BALANCE,
    PIP_H,
    PIP_V,
    AMBIENT_LOW,
    AMBIENT_HIGH,
    TILE,
    POWER,
    YEAR,
    MONTH,
    DAY,
    WEEKDAY,
    HOUR,
    MINUTE,
    TAG_LENGTH,
    FORMER_LENGTH,
    FIELDS
};

static const struct {
    unsigned width, first, last;
} fields[FIELDS] = {{7, 0, 100}, {2, 0, 2},  {6, 0, 60}, {7, 0, 100}, {7, 0, 100}, {7, 0, 100}, {7, 0, 100}, {2, 1, 2}, {1, 0, 1},
                    {7, 0, 99},  {4, 1, 12}, {5, 1, 31}, {3, 0, 6},   {5, 0, 23},  {6, 0, 59},  {5, 0, 16},  {5, 0, 16}};

static void put_bits(uint8_t *store, unsigned place, unsigned width, unsigned value)
{
    for (unsigned i = 0; i < width; i++) {
        unsigned bit = place + i;
        uint8_t mask = (uint8_t)(0x80 >> bit % 8);

        store[bit / 8] &= (uint8_t)~mask;
        if (value >> (width - 1 - i) & 1)
            store[bit / 8] |= mask;
    }
}

static void put_field(uint8_t *store, enum field field, unsigned value)
{
    unsigned place = 8;

    for (int before = 0; before < (int)field; before++)
        place += fields[before].width;
    put_bits(store, place, fields[field].width, value);
}

/* The marks: of a store without programs, of one with them, and while an erase is pending. */
enum { OLD_MARK = 0x00, MARK = 0x01, ERASE_MARK = 0xE7 };

/* Seven programs of five bytes each, by the widths of what they hold; six spare bits stand behind that. */
enum { PROGRAMS = 7, PROGRAM_SIZE = 5, PROGRAMS_AT = 44, PROGRAMS_END = PROGRAMS_AT + PROGRAMS * PROGRAM_SIZE };

enum part { ON_HOUR, ON_MINUTE, OFF_HOUR, OFF_MINUTE, PROGRAM_INPUT, WEEK, FLAGS, PARTS };

static const unsigned part_widths[PARTS] = {5, 6, 5, 6, 2, 7, 3};

static void put_part(uint8_t *store, unsigned program, enum part part, unsigned value)
{
    unsigned place = 8 * (PROGRAMS_AT + PROGRAM_SIZE * program);

    for (int before = 0; before < (int)part; before++)
        place += part_widths[before];
    put_bits(store, place, part_widths[part], value);
}

static void put_unused_programs(uint8_t *store)
{
    static const uint8_t unused[PROGRAM_SIZE] = {0xC7, 0x98, 0xF0, 0x00, 0x00};

    for (unsigned program = 0; program < PROGRAMS; program++)
        memcpy(store + PROGRAMS_AT + PROGRAM_SIZE * program, unused, sizeof unused);
}

static const uint8_t unused_front[] = {MARK, 0x8C, 0x3C, 0xC9, 0x91, 0x4A, 0x0C, 0x00, 0x87, 0x00, 0x00, 0x00};

static void put_unused(uint8_t *store)
{
    memset(store, 0, BOARD_STORE_SIZE);
    memcpy(store, unused_front, sizeof unused_front);
    put_unused_programs(store);
}

/* A time of day, or none: hour 24 and minute 60. */
static void put_random_time(uint8_t *store, unsigned program, enum part hour)
{
    int is_set = random_number() % 4 != 0;

    put_part(store, program, hour, is_set ? (unsigned)(random_number() % 24) : 24);
    put_part(store, program, hour + 1, is_set ? (unsigned)(random_number() % 60) : 60);
}

/* A store of a board in use and on: random fields and times within their ranges, anything in tags, spare bits and spare bytes. */
static void put_used(uint8_t *store)
{
    random_bytes(store, BOARD_STORE_SIZE);
    store[0] = MARK;
    for (int field = 0; field < FIELDS; field++) {
        unsigned first = fields[field].first, values = fields[field].last - first + 1;

        put_field(store, (enum field)field, first + (unsigned)(random_number() % values));
    }
    put_field(store, POWER, 1);
    for (unsigned program = 0; program < PROGRAMS; program++) {
        put_random_time(store, program, ON_HOUR);
        put_random_time(store, program, OFF_HOUR);
    }
}

/* What a start makes of a store on which it starts: one without programs gets unused ones. */
static void convert(uint8_t *store)
{
    if (store[0] != OLD_MARK)
        return;
    put_unused_programs(store);
    store[0] = MARK;
}

/* The board under test */

struct board {
    uint8_t *state, *store;
    size_t state_len, store_len;
    int id;
    int answer, refusal; /* of the last call */
    size_t size;
    uint8_t reply[BOARD_REPLY_ROOM];
};

static struct board board;
static uint8_t expected[BOARD_STORE_SIZE]; /* what the store should hold */

/* Starts the board on bytes of any number, lent anew; the result is that of the start. */
static int start_with(int id, const void *serial, size_t serial_len, const void *model, size_t model_len, const void *store,
                      size_t store_len, size_t state_len)
{
    const uint8_t *serial_lent = lend_copy(SERIAL, serial, serial_len), *model_lent = lend_copy(MODEL, model, model_len);
    uint8_t left[ZONE];
    int result;

    board.id = id;
    board.state_len = state_len;
    board.store_len = store_len;
    board.state = lend(STATE, state_len);
    board.store = lend_copy(STORE, store, store_len);
    result =
        board_start((uint8_t)id, serial_lent, serial_len, model_lent, model_len, board.store, store_len, board.state, state_len);
    memcpy(left, store, store_len);
    if (result == 0)
        convert(left);
    CHECK(holds_only(STORE, board.store, left, store_len), "start: result %d, and another store", result);
    CHECK(holds_only(SERIAL, serial_lent, serial, serial_len), "start: serial number changed");
    CHECK(holds_only(MODEL, model_lent, model, model_len), "start: model changed");
    if (result == 0)
        CHECK(is_untouched_beside(STATE, board.state, state_len), "start: memory beside the state written");
    else
        CHECK(is_untouched(STATE), "start: refused, but a state written");
    return result;
}

static const char serial[] = "SN-0042", model[] = "M421";

/* Starts a board on what is expected in its store. */
static int start(int id)
{
    int result = start_with(id, serial, strlen(serial), model, strlen(model), expected, BOARD_STORE_SIZE, BOARD_STATE_SIZE);

    if (result == 0)
        convert(expected);
    return result;
}

#define START(id) CHECK(start(id) == 0, "start refused")

static void start_unused(int id)
{
    put_unused(expected);
    START(id);
}

static void start_used(int id)
{
    put_used(expected);
    START(id);
}

/* What a call finds and what it leaves. */
struct before {
    uint8_t state[ZONE], store[ZONE], *reply, *refusal;
    size_t *size;
};

static struct before before_call(size_t room)
{
    struct before before = {.reply = lend(REPLY, room), .refusal = lend(REFUSAL, 1)};

    before.size = lend(SIZE, sizeof *before.size);
    memcpy(before.state, zone(STATE), ZONE);
    memcpy(before.store, zone(STORE), ZONE);
    return before;
}

static int keeps_all(int refusal)
{
    return refusal == BOARD_REFUSED_NO_START || refusal >= BOARD_REFUSED_ERASE_PENDING;
}

static int bytes_changed(const uint8_t *before)
{
    int changed = 0;

    for (size_t i = 0; i < ZONE; i++)
        changed += before[i] != zone(STORE)[i];
    return changed;
}

/* What holds of state and store, by the answer. */
static void check_kept(int line, const struct before *before)
{
    int is_refused = board.answer == BOARD_REFUSED, changed = bytes_changed(before->store);

    check(is_untouched_beside(STATE, board.state, board.state_len), line, "memory beside the state written");
    check(is_untouched_beside(STORE, board.store, board.store_len), line, "memory beside the store written");
    if (is_refused && keeps_all(board.refusal))
        check(memcmp(before->state, zone(STATE), ZONE) == 0, line, "refused with %d, but the state changed", board.refusal);
    if (is_refused || board.answer == BOARD_WAITING)
        check(changed == 0, line, "answer %d, but the store changed", board.answer);
    if (board.answer == BOARD_MORE || board.answer == BOARD_ENDED || board.answer == BOARD_BEGUN)
        check(changed <= 1, line, "answer %d, and %d bytes of the store changed", board.answer, changed);
}

/* What holds of the buffer and the two places; notes what they tell. */
static int after_call(int line, int answer, const struct before *before)
{
    int is_reply = answer == BOARD_REPLY, is_refused = answer == BOARD_REFUSED;

    board.answer = answer;
    board.size = is_reply ? *before->size : 0;
    board.refusal = is_refused ? *before->refusal : 0;
    check(board.size <= BOARD_REPLY_ROOM, line, "a reply of %zu bytes", board.size);
    if (board.size > BOARD_REPLY_ROOM)
        board.size = BOARD_REPLY_ROOM;
    memcpy(board.reply, before->reply, board.size);
    check(answer >= BOARD_WAITING && answer <= BOARD_REPLY, line, "answer %d", answer);
    check(is_untouched_beside(SIZE, before->size, is_reply ? sizeof *before->size : 0), line, "answer %d: a length written",
          answer);
    check(is_untouched_beside(REFUSAL, before->refusal, is_refused), line, "answer %d: a refusal written", answer);
    check(is_untouched_beside(REPLY, before->reply, board.size), line, "answer %d: the buffer written", answer);
    check_kept(line, before);
    return answer;
}

/* The board's own memory as arguments. */
#define OWN board.state, board.state_len, board.store, board.store_len

static int byte_into(int line, uint8_t b, size_t room)
{
    struct before before = before_call(room);

    return after_call(line, board_byte(OWN, b, before.reply, room, before.size, before.refusal), &before);
}

static int step_into(int line, size_t room)
{
    struct before before = before_call(room);

    return after_call(line, board_step(OWN, before.reply, room, before.size, before.refusal), &before);
}

static int gap_at(int line)
{
    struct before before = before_call(0);

    return after_call(line, board_gap(OWN, before.refusal), &before);
}

#define BYTE(b) byte_into(__LINE__, (b), BOARD_REPLY_ROOM)
#define STEP() step_into(__LINE__, BOARD_REPLY_ROOM)
#define GAP() gap_at(__LINE__)

/* What is expected of a call */

static void check_answer(int line, int answer)
{
    check(board.answer == answer, line, "answer %d (refusal %d) instead of %d", board.answer, board.refusal, answer);
    check(holds_only(STORE, board.store, expected, sizeof expected), line, "another store");
}

#define EXPECT(call, answer) ((call), check_answer(__LINE__, (answer)))

static void check_refusal(int line, int refusal)
{
    check(board.answer == BOARD_REFUSED && board.refusal == refusal, line, "answer %d, refusal %d instead of refusal %d",
          board.answer, board.refusal, refusal);
}

#define EXPECT_REFUSAL(call, number) ((call), check_refusal(__LINE__, (number)))

/* Gives the board a packet; all bytes but the last answer waiting. The result is the last answer. */
static int give(int line, struct packet p)
{
    for (size_t i = 0; i + 1 < p.size; i++)
        check(byte_into(line, p.bytes[i], BOARD_REPLY_ROOM) == BOARD_WAITING, line, "byte %zu of %zu: answer %d, refusal %d", i + 1,
              p.size, board.answer, board.refusal);
    return byte_into(line, p.bytes[p.size - 1], BOARD_REPLY_ROOM);
}

#define GIVE(p) give(__LINE__, (p))

static void check_reply(int line, struct packet reply)
{
    check_answer(line, BOARD_REPLY);
    check(board.size == reply.size, line, "a reply of %zu bytes instead of %zu", board.size, reply.size);
    check(memcmp(board.reply, reply.bytes, reply.size) == 0, line, "another reply");
}

static struct packet request_to(int destination, int type, const char *text)
{
    return packet_of(destination, '0', type, text);
}

static int own_address(void)
{
    return 0x40 + board.id;
}

/* A request to the board itself and its reply. */
static void exchange(int line, int type, const char *text, int reply_type, const char *reply_text)
{
    give(line, request_to(own_address(), type, text));
    check_reply(line, packet_of('0', own_address(), reply_type, reply_text));
}

#define EXCHANGE(...) exchange(__LINE__, __VA_ARGS__)

static const char erase_text[] = "F0010001", erase_reply_text[] = "00F0010100010001", *const null_text = "BE";

static void begin_erase(int line, int destination)
{
    give(line, request_to(destination, 'E', erase_text));
    expected[0] = ERASE_MARK;
    check_answer(line, BOARD_BEGUN);
}

#define BEGIN_ERASE(destination) begin_erase(__LINE__, (destination))

/* Steps p to q of an erase, none of them the last; each stores the unused value at its place. */
static void run_steps(int line, int p, int q)
{
    uint8_t unused[BOARD_STORE_SIZE];

    put_unused(unused);
    for (; p <= q; p++) {
        step_into(line, BOARD_REPLY_ROOM);
        expected[p] = unused[p];
        check_answer(line, BOARD_MORE);
    }
}

/* Whether the state is, byte for byte, what a start gives on an unused store. */
static int is_fresh(void)
{
    uint8_t store[BOARD_STORE_SIZE], state[BOARD_STATE_SIZE];

    put_unused(store);
    return board_start((uint8_t)board.id, (const uint8_t *)serial, strlen(serial), (const uint8_t *)model, strlen(model), store,
                       sizeof store, state, sizeof state) == 0 &&
           memcmp(state, board.state, sizeof state) == 0;
}

/* Runs the steps that are left; the last one gives the reply or ends silently. Then nothing of the past is left in the state. */
static void finish_erase(int line, int p, int is_owed)
{
    uint8_t unused[BOARD_STORE_SIZE];

    run_steps(line, p, BOARD_ERASE_STEPS - 1);
    step_into(line, BOARD_REPLY_ROOM);
    expected[0] = MARK;
    if (is_owed)
        check_reply(line, packet_of('0', own_address(), 'F', erase_reply_text));
    else
        check_answer(line, BOARD_ENDED);
    CHECK(is_fresh(), "line %d: something of the past in the state", line);
    CHECK(board_unused(unused, sizeof unused) == 0 && memcmp(unused, expected, sizeof unused) == 0, "another unused store");
}

#define FINISH_ERASE(p, is_owed) finish_erase(__LINE__, (p), (is_owed))

/* A board with nothing held refuses a byte other than 01h; a board that holds something takes it. */
static int holds_nothing(void)
{
    return BYTE('0') == BOARD_REFUSED && board.refusal == BOARD_REFUSED_NO_START;
}

/* The lessons P1 to P11 */

static const char p1[] = "01 30 41 30 45 30 41 02 30 30 31 30 30 30 36 34 03 77 0D";
static const char p1_reply[] = "01 30 30 41 46 31 32 02 30 30 30 30 31 30 30 30 30 30 36 34 30 30 36 34 03 04 0D";
static const char p2[] = "01 30 41 30 43 30 36 02 30 30 31 30 03 04 0D";
static const char p3[] = "01 30 30 41 44 31 32 02 30 30 30 30 31 30 30 30 30 30 36 34 30 30 33 32 03 05 0D";
static const char p4[] = "01 30 30 41 46 31 32 02 30 30 30 30 31 30 30 30 30 30 36 34 30 30 35 30 03 03 0D";
static const char p5[] = "01 30 2A 30 45 30 41 02 30 30 31 30 30 30 36 34 03 1C 0D";
static const char p6[] = "01 30 41 30 45 30 41 02 46 30 30 31 30 30 30 31 03 02 0D";
static const char p7[] = "01 30 30 41 46 31 32 02 30 30 46 30 30 31 30 31 30 30 30 31 30 30 30 31 03 73 0D";
static const char p8[] = "01 30 30 41 42 30 34 02 42 45 03 01 0D";
static const char p9[] = "01 30 30 41 42 31 32 02 30 32 30 30 44 36 30 30 30 30 30 34 30 30 30 31 03 74 0D";
static const char p10[] = "01 30 41 30 41 30 43 02 43 32 30 33 44 36 30 30 30 34 03 76 0D";
static const char p11[] = "\x8C\x3C\xC9\x91\x4A\x0C\x00\x87\x00\x00\x00";

/* A packet after which a field has a value. */
static void give_and_expect(struct packet p, enum field field, unsigned value)
{
    GIVE(p);
    put_field(expected, field, value);
}

static void test_lessons(void)
{
    start_unused(1);
    CHECK(memcmp(board.store + 1, p11, 11) == 0, "P11");
    give_and_expect(packet_in_hex(p1), BACKLIGHT, 100);
    check_reply(__LINE__, packet_in_hex(p1_reply));
    give_and_expect(request_to('A', 'E', "00100032"), BACKLIGHT, 50);
    check_answer(__LINE__, BOARD_REPLY);
    GIVE(packet_in_hex(p2));
    check_reply(__LINE__, packet_in_hex(p3));
    give_and_expect(request_to('A', 'E', "00100050"), BACKLIGHT, 80);
    check_reply(__LINE__, packet_in_hex(p4));
    give_and_expect(packet_in_hex(p5), BACKLIGHT, 100);
    check_answer(__LINE__, BOARD_SILENT);
    GIVE(request_to('A', 'A', "0010"));
    check_reply(__LINE__, packet_in_hex(p8));
    GIVE(request_to('A', 'A', "01D6"));
    check_reply(__LINE__, packet_in_hex(p9));
    give_and_expect(packet_in_hex(p10), POWER, 0);
    check_reply(__LINE__, packet_of('0', 'A', 'B', "00C203D60004"));
    GIVE(packet_in_hex(p6));
    expected[0] = ERASE_MARK;
    check_answer(__LINE__, BOARD_BEGUN);
    FINISH_ERASE(1, 1);
    check_reply(__LINE__, packet_in_hex(p7));
}

/* Bytes inside a packet that look like its end or a beginning; P2 to ID 8 has a CR for its check code. */
static void test_bytes_inside(void)
{
    start_unused(8);
    GIVE(packet_in_hex("01 30 48 30 43 30 36 02 30 30 31 30 03 0D 0D"));
    check_reply(__LINE__, packet_of('0', 'H', 'D', "0000100000640046"));
    EXCHANGE('A', "\x01\x02\x03\x0D\x01\x03\x0D\x0D", 'B', null_text);
    CHECK(holds_nothing(), "something held behind a reply");
}

/* What a good packet does */

static const struct {
    char type;
    const char *text;
    char reply_type;
    const char *reply;
} on_unused[] = {
    {'C', "0010", 'D', "0000100000640046"},
    {'C', "0060", 'D', "0000600000110001"},
    {'C', "0093", 'D', "00009300003C001E"},
    {'C', "0274", 'D', "0002740000640032"},
    {'C', "0275", 'D', "0002750000640032"},
    {'C', "1033", 'D', "0010330000640014"},
    {'C', "1034", 'D', "0010340000640050"},
    {'C', "104A", 'D', "00104A0000020001"},
    {'C', "F001", 'D', "00F0010100010000"},
    {'C', "0011", 'D', "0100110000000000"},
    {'C', "C211", 'D', "01C2110000000000"},
    {'C', "FFFF", 'D', "01FFFF0000000000"},
    {'C', "001", 'B', "BE"},
    {'C', "00100", 'B', "BE"},
    {'C', "001a", 'D', "01001A0000000000"},
    {'C', "001g", 'B', "BE"},
    {'E', "001100FF", 'F', "01001100000000FF"},
    {'E', "C2110001", 'F', "01C2110000000001"},
    {'E', "0010", 'B', "BE"},
    {'E', "0010004G", 'B', "BE"},
    {'E', "001000460", 'B', "BE"},
    {'A', "01D6", 'B', "0200D60000040001"},
    {'A', "01d6", 'B', "BE"},
    {'A', "01D60", 'B', "BE"},
    {'A', "C203D60002", 'B', "01C203D60002"},
    {'A', "C203D60101", 'B', "01C203D60101"},
    {'A', "C203D6001", 'B', "BE"},
    {'A', "C203D6000100", 'B', "BE"},
    {'A', "C203D6000G", 'B', "BE"},
    {'A', "C211", 'B', "C31100010106000000"},
    {'A', "C2110", 'B', "BE"},
    {'A', "C216", 'B', "C316534E2D30303432"},
    {'A', "C217", 'B', "C3174D343231"},
    {'A', "C218", 'B', "BE"},
    {'A', "F010", 'B', "F110"},
    {'A', "F012", 'B', "F112"},
    {'A', "F013", 'B', "BE"},
    {'A', "F0114", 'B', "BE"},
    {'A', "F011 1", 'B', "BE"},
    {'A', "F01141g1", 'B', "BE"},
    {'A', "BE", 'B', "BE"},
    {'A', "0010", 'B', "BE"},
    {'A', "00100032", 'B', "BE"},
    {'A', "C22100", 'B', "C32100183C183C0000000000000000000000"},
    {'A', "C22106", 'B', "C32106183C183C0000000000000000000000"},
    {'A', "C22107", 'B', "BE"},
    {'A', "C221", 'B', "BE"},
    {'A', "C2210", 'B', "BE"},
    {'A', "C22100 ", 'B', "BE"},
    {'A', "C2210000", 'B', "BE"},
    {'A', "C2210g", 'B', "BE"},
    {'C', "C221", 'D', "01C2210000000000"},
    {'A', "C22207183C183C0000000000000000000000", 'B', "C3220107183C183C0000000000000000000000"},
    {'A', "C222", 'B', "BE"},
    {'A', "C22200183C183C00000000000000000000", 'B', "BE"},
    {'A', "C22200183C183C000000000000000000000", 'B', "BE"},
    {'A', "C22200183C183C000000000000000000000000", 'B', "BE"},
    {'A', "C22200183g183C0000000000000000000000", 'B', "BE"},
    {'A', "C2150701", 'B', "C315010701"},
    {'A', "C2150002", 'B', "C315010002"},
    {'A', "C215", 'B', "BE"},
    {'A', "C21500", 'B', "BE"},
    {'A', "C215000", 'B', "BE"},
    {'A', "C215000100", 'B', "BE"},
    {'A', "C215000G", 'B', "BE"},
    {'A', "C32100", 'B', "BE"},
};

/* Requests that change nothing, to each ID and to all. */
static void test_reads(void)
{
    for (int id = 1; id <= 8; id++) {
        start_unused(id);
        for (size_t i = 0; i < COUNT(on_unused); i++) {
            EXCHANGE(on_unused[i].type, on_unused[i].text, on_unused[i].reply_type, on_unused[i].reply);
            EXPECT(GIVE(request_to('*', on_unused[i].type, on_unused[i].text)), BOARD_SILENT);
        }
        CHECK(holds_nothing(), "something held behind a packet");
    }
}

static const struct setting {
    unsigned pair, largest;
    enum field field;
    unsigned unused;
} settings[] = {{0x0010, 100, BACKLIGHT, 70},    {0x0060, 17, INPUT, 1},   {0x0093, 60, BALANCE, 30},
                {0x0274, 100, PIP_H, 50},        {0x0275, 100, PIP_V, 50}, {0x1033, 100, AMBIENT_LOW, 20},
                {0x1034, 100, AMBIENT_HIGH, 80}, {0x104A, 2, TILE, 1}};

/* What a setting keeps of a value, and what it shows of that; -1 where the value is not accepted. */
static int kept(const struct setting *setting, unsigned value)
{
    if (setting->field == INPUT)
        return value == 1 ? 0 : value == 3 ? 1 : value == 4 || value == 17 ? 2 : -1;
    if (setting->field == TILE)
        return value == 1 || value == 2 ? (int)value : -1;
    return value <= setting->largest ? (int)value : -1;
}

static unsigned shown(const struct setting *setting, unsigned value)
{
    return setting->field == INPUT && value == 4 ? 17 : value;
}

static void try_set(const struct setting *setting, unsigned value, int is_on)
{
    char text[20], reply[20];
    int stored = is_on ? kept(setting, value) : -1;

    snprintf(text, sizeof text, "%04X%04X", setting->pair, value);
    snprintf(reply, sizeof reply, "%02X%04X00%04X%04X", stored < 0, setting->pair, setting->largest, value);
    GIVE(request_to(own_address(), 'E', text));
    if (stored >= 0)
        put_field(expected, setting->field, (unsigned)stored);
    check_reply(__LINE__, packet_of('0', own_address(), 'F', reply));
    if (stored < 0)
        return;
    text[4] = '\0';
    snprintf(reply, sizeof reply, "00%04X00%04X%04X", setting->pair, setting->largest, shown(setting, value));
    EXCHANGE('C', text, 'D', reply);
}

static const unsigned far_values[] = {0x0100, 0x0101, 0x0164, 0x1001, 0x8000, 0x8001, 0xFF01, 0xFFFF};

/* Every value to 300 and some far away, in every setting, on a board in use; nothing else in the store changes. */
static void test_settings(void)
{
    for (size_t i = 0; i < COUNT(settings); i++) {
        start_used(3);
        for (unsigned value = 0; value <= 300; value++)
            try_set(&settings[i], value, 1);
        for (size_t far = 0; far < COUNT(far_values); far++)
            try_set(&settings[i], far_values[far], 1);
    }
}

/* A Set to all boards does the same and says nothing. */
static void test_set_to_all(void)
{
    start_used(5);
    for (size_t i = 0; i < COUNT(settings); i++) {
        char text[20];

        put_field(expected, settings[i].field, (unsigned)kept(&settings[i], settings[i].unused));
        snprintf(text, sizeof text, "%04X%04X", settings[i].pair, settings[i].unused);
        EXPECT(GIVE(request_to('*', 'E', text)), BOARD_SILENT);
        snprintf(text, sizeof text, "%04X%04X", settings[i].pair, 0x0200u);
        EXPECT(GIVE(request_to('*', 'E', text)), BOARD_SILENT);
    }
}

static void put_hex(char *text, const uint8_t *bytes, size_t n)
{
    *text = '\0';
    for (size_t i = 0; i < n; i++)
        snprintf(text + 2 * i, 3, "%02X", bytes[i]);
}

/* The numbers of a schedule write: the program, what it is to hold, and eight that are reserved. */
enum { NUMBERS = 16, RESERVED = 8 };

static int is_time(unsigned hour, unsigned minute)
{
    return (hour <= 23 && minute <= 59) || (hour == 24 && minute == 60);
}

/* What is kept of an input, or -1. */
static int kept_input(unsigned input)
{
    return input == 0 ? 0 : input == 1 ? 1 : input == 3 ? 2 : input == 17 ? 3 : -1;
}

static int program_is_good(const uint8_t *n)
{
    static const uint8_t zeros[NUMBERS - RESERVED];

    return n[0] < PROGRAMS && is_time(n[1], n[2]) && is_time(n[3], n[4]) && kept_input(n[5]) >= 0 && n[6] <= 0x7F && n[7] <= 7 &&
           memcmp(n + RESERVED, zeros, sizeof zeros) == 0;
}

/* Puts a good program where it is expected. */
static void expect_program(const uint8_t *n)
{
    for (int part = ON_HOUR; part < PARTS; part++)
        put_part(expected, n[0], (enum part)part, part == PROGRAM_INPUT ? (unsigned)kept_input(n[5]) : n[1 + part]);
}

/* Writes a program; where it is good, it is read again. */
static void try_program(const uint8_t *numbers)
{
    char digits[40], text[50];

    put_hex(digits, numbers, NUMBERS);
    snprintf(text, sizeof text, "C222%s", digits);
    GIVE(request_to(own_address(), 'A', text));
    if (program_is_good(numbers))
        expect_program(numbers);
    snprintf(text, sizeof text, "C322%02X%s", !program_is_good(numbers), digits);
    check_reply(__LINE__, packet_of('0', own_address(), 'B', text));
    if (!program_is_good(numbers))
        return;
    snprintf(text, sizeof text, "C321%s", digits);
    EXCHANGE('A', (const char[]){'C', '2', '2', '1', digits[0], digits[1], '\0'}, 'B', text);
}

static void try_enable(unsigned program, unsigned enable)
{
    int is_good = program < PROGRAMS && enable <= 1;
    char text[20], reply[20];

    snprintf(text, sizeof text, "C215%02X%02X", program, enable);
    snprintf(reply, sizeof reply, "C315%02X%02X%02X", !is_good, program, enable);
    GIVE(request_to(own_address(), 'A', text));
    if (is_good) /* FL bit 2, the lowest bit of the program's fourth byte */
        put_bits(expected, 8 * (PROGRAMS_AT + PROGRAM_SIZE * program) + 31, 1, enable);
    check_reply(__LINE__, packet_of('0', own_address(), 'B', reply));
}

/* In standby a Set is refused, but Gets, power, date, tags, programs and the erase work. */
static void test_standby(void)
{
    start_unused(2);
    GIVE(request_to('B', 'A', "C203D60004"));
    put_field(expected, POWER, 0);
    check_reply(__LINE__, packet_of('0', 'B', 'B', "00C203D60004"));
    EXCHANGE('A', "01D6", 'B', "0200D60000040004");
    for (size_t i = 0; i < COUNT(settings); i++)
        try_set(&settings[i], settings[i].unused, 0);
    EXCHANGE('E', "00110001", 'F', "0100110000000001");
    EXCHANGE('E', "F0010002", 'F', "01F0010100010002");
    EXCHANGE('C', "0010", 'D', "0000100000640046");
    GIVE(request_to('B', 'A', "F01141"));
    expected[12] = 0x41;
    put_field(expected, TAG_LENGTH, 1);
    check_reply(__LINE__, packet_of('0', 'B', 'B', "F1110041"));
    EXCHANGE('A', "C22103", 'B', "C32103183C183C0000000000000000000000");
    try_program((const uint8_t[NUMBERS]){3, 7, 0, 23, 30, 17, 0x1F, 6});
    try_enable(3, 0);
    GIVE(request_to('*', 'A', "C203D60001"));
    put_field(expected, POWER, 1);
    check_answer(__LINE__, BOARD_SILENT);
    try_set(&settings[0], 1, 1);
}

/* Modes: 1 and 4 of all 16-bit numbers up to 300 and some far away. */
static void test_modes(void)
{
    char text[20], reply[20];

    start_used(4);
    for (unsigned mode = 0; mode <= 300 + COUNT(far_values); mode++) {
        unsigned sent = mode <= 300 ? mode : far_values[mode - 301];

        snprintf(text, sizeof text, "C203D6%04X", sent);
        snprintf(reply, sizeof reply, "%02XC203D6%04X", sent != 1 && sent != 4, sent);
        GIVE(request_to('D', 'A', text));
        if (sent == 1 || sent == 4)
            put_field(expected, POWER, sent == 1);
        check_reply(__LINE__, packet_of('0', 'D', 'B', reply));
    }
}

/* A date, its request and the replies to its write and its read. */
struct dating {
    unsigned date[7];
    int is_good;
    char request[30], written[30], shown[30];
};

static struct dating dating_of(const unsigned *date)
{
    struct dating d = {.is_good = date_is_good(date)};
    char digits[20];

    memcpy(d.date, date, sizeof d.date);
    snprintf(digits, sizeof digits, "%02X%02X%02X%02X%02X%02X%02X", date[0], date[1], date[2], date[3], date[4], date[5], date[6]);
    snprintf(d.request, sizeof d.request, "C212%s", digits);
    snprintf(d.written, sizeof d.written, "C312%02X%s", !d.is_good, digits);
    snprintf(d.shown, sizeof d.shown, "C311%s", digits);
    return d;
}

static void put_date(uint8_t *store, const unsigned *date)
{
    for (int i = 0; i < 6; i++)
        put_field(store, (enum field)(YEAR + i), date[i]);
}

/* Every value of each field of a date, the others being good: Saturday, 28 February 2026, 12:30. */
static void test_dates(void)
{
    start_used(7);
    for (int field = 0; field < 7; field++) {
        for (unsigned value = 0; value <= 255; value++) {
            unsigned date[7] = {26, 2, 28, 6, 12, 30, 0};
            struct dating d;

            date[field] = value;
            d = dating_of(date);
            GIVE(request_to('G', 'A', d.request));
            if (d.is_good)
                put_date(expected, date);
            check_reply(__LINE__, packet_of('0', 'G', 'B', d.written));
            if (d.is_good)
                EXCHANGE('A', "C211", 'B', d.shown);
        }
    }
    EXCHANGE('A', "C21200010106000", 'B', null_text);
    EXCHANGE('A', "C212000101060000", 'B', null_text);
    EXCHANGE('A', "C2120001010600000000", 'B', null_text);
}

/* Every day of the century, the days around each month and the year after the century, with every weekday and one more. There are
 * so many that nothing is looked at but the last answer of each packet, its reply and the store. */
static void test_century(void)
{
    uint8_t state[BOARD_STATE_SIZE], store[BOARD_STORE_SIZE], reply[BOARD_REPLY_ROOM], refusal;
    size_t size = 0, good = 0;

    if (at_end) /* buffers lie elsewhere in this round, and none of them here */
        return;
    put_used(expected);
    memcpy(store, expected, sizeof store);
    CHECK(board_start(1, NULL, 0, NULL, 0, store, sizeof store, state, sizeof state) == 0, "start refused");
    for (unsigned i = 0; i < 101 * 14 * 33 * 8; i++) {
        struct dating d = dating_of((unsigned[7]){i / 8 / 33 / 14, i / 8 / 33 % 14, i / 8 % 33, i % 8, i % 24, i % 60, 0});
        struct packet request = packet_of('A', '0', 'A', d.request), written = packet_of('0', 'A', 'B', d.written);
        int answer = BOARD_WAITING;

        for (size_t k = 0; k < request.size; k++)
            answer = board_byte(state, sizeof state, store, sizeof store, request.bytes[k], reply, sizeof reply, &size, &refusal);
        if (d.is_good)
            put_date(expected, d.date);
        good += (size_t)d.is_good;
        CHECK(answer == BOARD_REPLY && size == written.size && memcmp(reply, written.bytes, size) == 0, "%s: another reply",
              d.request);
        CHECK(memcmp(store, expected, sizeof store) == 0, "%s: another store", d.request);
        memcpy(store, expected, sizeof store); /* so that one wrong date is told once */
    }
    CHECK(good == 36525, "%zu good dates in a century", good);
}

/* Writes a tag and reads it and the former one. */
static void try_tag(const uint8_t *tag, size_t n, const char *former_hex)
{
    char hex[40], text[60];

    put_hex(hex, tag, n);
    snprintf(text, sizeof text, "F011%s", hex);
    GIVE(request_to(own_address(), 'A', text));
    memcpy(expected + 28, expected + 12, 16);
    put_field(expected, FORMER_LENGTH, (unsigned)strlen(former_hex) / 2);
    memset(expected + 12, 0, 16);
    if (n > 0)
        memcpy(expected + 12, tag, n);
    put_field(expected, TAG_LENGTH, (unsigned)n);
    snprintf(text, sizeof text, "F11100%s", hex);
    check_reply(__LINE__, packet_of('0', own_address(), 'B', text));
    snprintf(text, sizeof text, "F110%s", hex);
    EXCHANGE('A', "F010", 'B', text);
    snprintf(text, sizeof text, "F112%s", former_hex);
    EXCHANGE('A', "F012", 'B', text);
}

/* Tags of 0 to 16 bytes and back; the old tag becomes the former one, even if equal; 17 bytes and more are none. */
static void test_tags(void)
{
    uint8_t tag[16];
    char former[40] = "", text[80];

    start_used(6);
    put_field(expected, TAG_LENGTH, 0);
    START(6);
    for (int round = 0; round <= 34; round++) {
        size_t n = round <= 16 ? (size_t)round : round <= 33 ? (size_t)(33 - round) : 0;

        random_bytes(tag, sizeof tag);
        try_tag(tag, n, former);
        put_hex(former, tag, n);
    }
    try_tag(tag, 0, "");
    for (size_t n = 17; n <= 29; n++) {
        memset(text, '4', sizeof text);
        memcpy(text, "F011", 4);
        text[4 + 2 * n] = '\0';
        EXCHANGE('A', text, 'B', null_text);
    }
}

/* Serial number and model of 0 to 16 bytes, of any value. */
static void test_serials_and_models(void)
{
    uint8_t bytes[2][16];
    char text[60] = "C316", model_text[60] = "C317";

    put_used(expected);
    for (size_t n = 0; n <= 16; n++) {
        random_bytes(bytes[0], 16);
        random_bytes(bytes[1], 16);
        put_hex(text + 4, bytes[0], n);
        put_hex(model_text + 4, bytes[1], 16 - n);
        CHECK(start_with(1, bytes[0], n, bytes[1], 16 - n, expected, BOARD_STORE_SIZE, BOARD_STATE_SIZE) == 0, "start refused");
        lend(SERIAL, 0); /* they may go after the start */
        lend(MODEL, 0);
        EXCHANGE('A', "C216", 'B', text);
        EXCHANGE('A', "C217", 'B', model_text);
    }
}

/* Programs */

static const uint8_t good_program[NUMBERS] = {2, 7, 0, 23, 30, 17, 0x1F, 6};

/* Program 2, 07:00 to 23:30, input 17, Monday to Friday, every week and enabled, then disabled; and an unused board's program 0. */
static void test_worked_program(void)
{
    static const uint8_t stored[PROGRAM_SIZE] = {0x38, 0x17, 0x7B, 0x3F, 0x80};
    struct packet p;

    start_unused(1);
    p = packet_in_hex("01 30 41 30 41 30 38 02 43 32 32 31 30 30 03 7B 0D");
    GIVE(p);
    p = packet_of('0', 'A', 'B', "C32100183C183C0000000000000000000000");
    CHECK(p.bytes[p.size - 2] == 0x75, "the check code of an unused program");
    check_reply(__LINE__, p);
    p = request_to('A', 'A', "C222020700171E111F060000000000000000");
    CHECK(p.bytes[p.size - 2] == 0x72, "the check code of a schedule write");
    GIVE(p);
    memcpy(expected + PROGRAMS_AT + 2 * PROGRAM_SIZE, stored, sizeof stored);
    p = packet_of('0', 'A', 'B', "C32200020700171E111F060000000000000000");
    CHECK(p.bytes[p.size - 2] == 0x7E, "the check code of a schedule write's reply");
    check_reply(__LINE__, p);
    p = request_to('A', 'A', "C2150200");
    CHECK(p.bytes[p.size - 2] == 0x07, "the check code of an enable write");
    GIVE(p);
    expected[PROGRAMS_AT + 2 * PROGRAM_SIZE + 3] = 0x3E;
    p = packet_of('0', 'A', 'B', "C315000200");
    CHECK(p.bytes[p.size - 2] == 0x07, "the check code of an enable write's reply");
    check_reply(__LINE__, p);
}

/* Every value of each number, the others being good, on a board in use, whose spare bits stay as they are. */
static void test_programs(void)
{
    start_used(3);
    for (int place = 0; place < NUMBERS; place++) {
        for (unsigned value = 0; value <= 255; value++) {
            uint8_t numbers[NUMBERS];

            memcpy(numbers, good_program, sizeof numbers);
            numbers[place] = (uint8_t)value;
            try_program(numbers);
        }
    }
}

/* Hours and minutes around their ends, together and in each program; 24 and 60 only with one another. */
static void test_program_times(void)
{
    static const uint8_t hours[] = {0, 1, 23, 24, 25, 31, 255}, minutes[] = {0, 1, 59, 60, 61, 63, 255};

    start_used(4);
    for (size_t i = 0; i < COUNT(hours) * COUNT(minutes) * PROGRAMS; i++) {
        uint8_t numbers[NUMBERS], hour = hours[i % COUNT(hours)], minute = minutes[i / COUNT(hours) % COUNT(minutes)];

        memcpy(numbers, good_program, sizeof numbers);
        numbers[0] = (uint8_t)(i / COUNT(hours) / COUNT(minutes));
        numbers[1] = hour;
        numbers[2] = minute;
        try_program(numbers);
        numbers[1] = good_program[1];
        numbers[2] = good_program[2];
        numbers[3] = hour;
        numbers[4] = minute;
        try_program(numbers);
        numbers[1] = hour; /* the same time twice */
        numbers[2] = minute;
        try_program(numbers);
    }
}

/* Every program that a number can name, read, enabled and disabled. */
static void test_program_numbers(void)
{
    char text[10];

    start_used(5);
    for (unsigned program = 0; program <= 255; program++) {
        snprintf(text, sizeof text, "C221%02X", program);
        if (program >= PROGRAMS)
            EXCHANGE('A', text, 'B', null_text);
        for (unsigned enable = 0; enable <= 3; enable++)
            try_enable(program, enable % 2);
        for (unsigned enable = 2; enable <= 255; enable += program < PROGRAMS ? 1 : 100)
            try_enable(program, enable);
    }
}

/* To all boards the same is done, and nothing said. */
static void test_programs_to_all(void)
{
    start_used(6);
    EXPECT(GIVE(request_to('*', 'A', "C22100")), BOARD_SILENT);
    EXPECT(GIVE(request_to('*', 'A', "C22107")), BOARD_SILENT);
    expect_program(good_program);
    EXPECT(GIVE(request_to('*', 'A', "C222020700171E111F060000000000000000")), BOARD_SILENT);
    EXPECT(GIVE(request_to('*', 'A', "C222020700171E111F080000000000000000")), BOARD_SILENT);
    put_part(expected, 2, FLAGS, 2);
    EXPECT(GIVE(request_to('*', 'A', "C2150200")), BOARD_SILENT);
    EXPECT(GIVE(request_to('*', 'A', "C2150702")), BOARD_SILENT);
}

/* A date in the ranges of its fields that was stored when no more was asked: it counts as sound, a start on a store with this mark
 * takes it, it is shown as it is stored, and a date write that is refused leaves it. */
static void try_stored_date(const unsigned *date, int mark)
{
    struct dating d = dating_of(date);

    put_used(expected);
    put_date(expected, date);
    expected[0] = (uint8_t)mark;
    START(1);
    EXCHANGE('A', "C211", 'B', d.shown);
    if (d.is_good)
        return;
    EXCHANGE('A', d.request, 'B', d.written);
    EXCHANGE('A', "C211", 'B', d.shown);
}

/* The 1st to the 31st of every month of 2000 to 2003, with every weekday, on either mark; then every other write beside 31
 * February. */
static void test_stored_dates(void)
{
    static const unsigned lacking[7] = {1, 2, 31, 5, 12, 30, 0}, good[7] = {1, 3, 1, 4, 0, 0, 0};
    static const int marks[] = {OLD_MARK, MARK};
    struct dating stored = dating_of(lacking), next = dating_of(good);

    for (unsigned i = 0; i < 4 * 12 * 31 * 7; i++)
        for (size_t mark = 0; mark < COUNT(marks); mark++)
            try_stored_date((unsigned[7]){i / 7 / 31 / 12, i / 7 / 31 % 12 + 1, i / 7 % 31 + 1, i % 7, 23, 59, 0}, marks[mark]);
    put_used(expected);
    put_date(expected, lacking);
    put_field(expected, TAG_LENGTH, 0);
    START(1);
    for (size_t i = 0; i < COUNT(settings); i++)
        try_set(&settings[i], settings[i].unused, 1);
    try_tag((const uint8_t *)"NEW", 3, "");
    try_program(good_program);
    try_enable(good_program[0], 0);
    GIVE(request_to('A', 'A', "C203D60004"));
    put_field(expected, POWER, 0);
    check_reply(__LINE__, packet_of('0', 'A', 'B', "00C203D60004"));
    EXCHANGE('A', "C211", 'B', stored.shown);
    START(1);
    EXCHANGE('A', "C211", 'B', stored.shown);
    GIVE(request_to('A', 'A', next.request));
    put_date(expected, good);
    check_reply(__LINE__, packet_of('0', 'A', 'B', next.written));
    EXCHANGE('A', "C211", 'B', next.shown);
}

/* Refusals 1 to 8 */

static void test_no_start(void)
{
    start_used(1);
    for (int b = 0; b <= 255; b++) {
        if (b != 0x01)
            EXPECT_REFUSAL(BYTE((uint8_t)b), BOARD_REFUSED_NO_START);
    }
    EXCHANGE('A', "F013", 'B', null_text);
}

/* What a digit stands for, in either case; -1 where the byte is none. */
static int digit_value(uint8_t b)
{
    static const char digits[] = "0123456789ABCDEF", small[] = "abcdef";
    const char *found = b ? strchr(digits, b) : NULL, *letter = b ? strchr(small, b) : NULL;

    if (letter)
        return 10 + (int)(letter - small);
    return found ? (int)(found - digits) : -1;
}

/* The refusal of a header, or 0. */
static int header_refusal(const uint8_t *h)
{
    int high = digit_value(h[5]), low = digit_value(h[6]), l = high < 0 || low < 0 ? 0 : 16 * high + low;

    if (h[1] != '0' || h[3] != '0')
        return BOARD_REFUSED_HEADER;
    if (h[4] != 'A' && h[4] != 'C' && h[4] != 'E')
        return BOARD_REFUSED_MESSAGE_TYPE;
    return l < 4 || l > 64 ? BOARD_REFUSED_LENGTH : 0;
}

/* Gives seven bytes; the header is judged at the seventh, and not before. */
static void try_header(const uint8_t *header)
{
    int refusal = header_refusal(header);

    GAP();
    for (int i = 0; i < 6; i++)
        EXPECT(BYTE(header[i]), BOARD_WAITING);
    if (refusal == 0) {
        EXPECT(BYTE(header[6]), BOARD_WAITING);
    } else {
        EXPECT_REFUSAL(BYTE(header[6]), refusal);
        CHECK(holds_nothing(), "something held behind refusal %d", refusal);
    }
}

/* Each header byte over all its values; all values of two bytes at a time where several refusals fit. */
static void test_headers(void)
{
    start_used(1);
    for (int place = 1; place <= 6; place++) {
        for (int b = 0; b <= 255; b++) {
            uint8_t header[] = {0x01, '0', 'A', '0', 'C', '1', '6'};

            header[place] = (uint8_t)b;
            try_header(header);
        }
    }
    for (int faults = 0; faults < 16; faults++) {
        uint8_t header[] = {0x01, '0', 'A', '0', 'A', '0', '4'};

        header[1] += faults & 1;
        header[3] += faults >> 1 & 1;
        header[4] += faults >> 2 & 1;
        header[6] -= faults >> 3 & 1;
        try_header(header);
    }
}

/* Every byte that is no digit, in each place of a text. */
static void try_bad_digits(int type, const char *text)
{
    for (size_t place = 0; place < strlen(text); place++) {
        for (int b = 0; b <= 255; b++) {
            struct packet p = request_to(own_address(), type, text);

            if (digit_value((uint8_t)b) >= 0)
                continue;
            p.bytes[8 + place] = (uint8_t)b;
            mend_check_code(&p);
            GIVE(p);
            check_reply(__LINE__, packet_of('0', own_address(), 'B', null_text));
        }
    }
}

/* Gives a packet, with its own check code, to a board that starts on a store: its reply, and the store it leaves. */
static void try_spelling(struct packet p, const uint8_t *before, struct packet reply, const uint8_t *after)
{
    memcpy(expected, before, sizeof expected);
    START(1);
    mend_check_code(&p);
    GIVE(p);
    memcpy(expected, after, sizeof expected);
    check_reply(__LINE__, reply);
}

/* Every spelling of the digits of a request, its length's among them; then each letter of its name in small. */
static void try_spellings(int type, const char *text, size_t name)
{
    const struct packet capitals = request_to('A', type, text);
    struct packet reply = {.size = 0};
    uint8_t before[BOARD_STORE_SIZE], after[BOARD_STORE_SIZE];
    size_t letters[2 * 16 + 2], count = 0;

    start_used(1);
    memcpy(before, expected, sizeof before);
    CHECK(GIVE(capitals) == BOARD_REPLY, "%s: no reply", text);
    memcpy(reply.bytes, board.reply, board.size);
    reply.size = board.size;
    CHECK(reply.size > packet_of('0', 'A', 'B', null_text).size, "%s: nothing known", text);
    memcpy(after, board.store, sizeof after);
    for (size_t place = 5; place < capitals.size - 3; place++) {
        if (capitals.bytes[place] >= 'A' && capitals.bytes[place] <= 'F' && (place < 7 || place >= 8 + name))
            letters[count++] = place;
    }
    CHECK(count <= 13, "%s: %zu letters", text, count);
    for (size_t mask = 0; mask < (size_t)1 << count && count <= 13; mask++) {
        struct packet p = capitals;

        for (size_t i = 0; i < count; i++)
            p.bytes[letters[i]] += mask >> i & 1 ? 'a' - 'A' : 0;
        try_spelling(p, before, reply, after);
    }
    for (size_t place = 8; place < 8 + name; place++) {
        struct packet p = capitals;

        p.bytes[place] = (uint8_t)tolower(p.bytes[place]);
        if (p.bytes[place] != capitals.bytes[place])
            try_spelling(p, before, packet_of('0', 'A', 'B', null_text), before);
    }
}

/* Digits in small letters do what those in capitals do; a name in small letters is nothing known. */
static void test_spellings(void)
{
    try_spellings('C', "104A", 0);
    try_spellings('C', "C211", 0);
    try_spellings('E', "0010004B", 0);
    try_spellings('E', "ABCDEFAB", 0);
    try_spellings('A', "01D6", 4);
    try_spellings('A', "C203D60001", 6);
    try_spellings('A', "C203D6ABCD", 6);
    try_spellings('A', "C211", 4);
    try_spellings('A', "C2121A0B1506112A00", 4);
    try_spellings('A', "C216", 4);
    try_spellings('A', "C217", 4);
    try_spellings('A', "F010", 4);
    try_spellings('A', "F012", 4);
    try_spellings('A', "F011AABBCCDDEEFF", 4);
    try_spellings('A', "C22101", 4);
    try_spellings('A', "C222020700171E111F060000000000000000", 4);
    try_spellings('A', "C215020A", 4);
    start_unused(1);
    put_field(expected, BACKLIGHT, 75);
    EXCHANGE('E', "0010004b", 'F', "000010000064004B");
    expected[0] = ERASE_MARK;
    EXPECT(GIVE(request_to('A', 'E', "f0010001")), BOARD_BEGUN);
    FINISH_ERASE(1, 1);
}

/* Twenty-two bytes are digits in each place of a value. With another byte a text is nothing known: names consist of digits too. */
static void test_digits(void)
{
    static const struct {
        char type;
        const char *text;
    } requests[] = {{'C', "0010"},
                    {'E', "00100000"},
                    {'A', "01D6"},
                    {'A', "C203D60001"},
                    {'A', "C211"},
                    {'A', "C21200010106000000"},
                    {'A', "C216"},
                    {'A', "C217"},
                    {'A', "F010"},
                    {'A', "F0113031"},
                    {'A', "F012"},
                    {'A', "C22100"},
                    {'A', "C222020700171E111F060000000000000000"},
                    {'A', "C2150200"}};

    start_used(4);
    for (size_t i = 0; i < COUNT(requests); i++)
        try_bad_digits(requests[i].type, requests[i].text);
    for (unsigned place = 0; place < 4; place++) {
        for (unsigned value = 0; value < 16; value++) {
            char small[9], capital[17];

            try_set(&settings[0], value << 4 * place, 1);
            snprintf(small, sizeof small, "ffff%04x", value << 4 * place);
            snprintf(capital, sizeof capital, "01FFFF000000%04X", value << 4 * place);
            EXCHANGE('E', small, 'F', capital);
        }
    }
}

/* Every L that two digits can tell: 4 to 64 take L + 9 bytes, neither more nor fewer. */
static void test_lengths(void)
{
    start_used(1);
    for (unsigned l = 0; l <= 255; l++) {
        char text[300] = "";
        struct packet p;

        if (l < 4 || l > 64) {
            uint8_t header[8] = {0x01, '0', 'A', '0', 'A'};

            snprintf((char *)header + 5, 3, "%02X", l);
            try_header(header);
            continue;
        }
        GAP();
        memset(text, 'Z', l - 2);
        p = request_to('A', 'A', text);
        CHECK(p.size == l + 9, "L %u: %zu bytes", l, p.size);
        GIVE(p);
        check_reply(__LINE__, packet_of('0', 'A', 'B', null_text));
    }
}

/* Faults of a packet, each behind its number; several at once give the first. */
static struct packet faulty(unsigned faults)
{
    struct packet p = request_to(faults & 16 ? 'B' : 'A', 'E', "00100001");

    if (faults & 4)
        p.bytes[7] = 0x03;
    if (faults & 8)
        p.bytes[p.size - 3] = 0x02;
    if (faults & 1)
        p.bytes[p.size - 1] = 0x0A;
    mend_check_code(&p);
    if (faults & 2)
        p.bytes[p.size - 2] ^= 1;
    return p;
}

static void test_faulty_packets(void)
{
    static const int refusals[] = {BOARD_REFUSED_NO_RETURN, BOARD_REFUSED_CHECK_CODE, BOARD_REFUSED_MESSAGE, BOARD_REFUSED_MESSAGE,
                                   BOARD_REFUSED_DESTINATION};

    start_used(1);
    for (unsigned faults = 1; faults < 32; faults++) {
        size_t first = 0;

        while (!(faults >> first & 1))
            first++;
        EXPECT_REFUSAL(GIVE(faulty(faults)), refusals[first]);
        CHECK(holds_nothing(), "something held behind refusal %d", refusals[first]);
    }
    try_set(&settings[0], 1, 1);
}

/* 8: every destination but the own address and ALL. */
static void test_destinations(void)
{
    for (int id = 1; id <= 8; id++) {
        start_used(id);
        for (int destination = 1; destination <= 255; destination++) {
            struct packet p = request_to(destination, 'A', "F013");

            if (destination == own_address())
                EXPECT(GIVE(p), BOARD_REPLY);
            else if (destination == '*')
                EXPECT(GIVE(p), BOARD_SILENT);
            else
                EXPECT_REFUSAL(GIVE(p), BOARD_REFUSED_DESTINATION);
        }
    }
}

/* A good Set with one byte changed to each other value does nothing, and behind a gap the board is as before. */
static void test_changed_bytes(void)
{
    const struct packet good = request_to('A', 'E', "00100064");

    start_unused(1);
    for (size_t place = 0; place < good.size; place++) {
        for (int change = 1; change <= 255; change++) {
            struct packet p = good;

            p.bytes[place] ^= (uint8_t)change;
            for (size_t i = 0; i < p.size; i++) {
                BYTE(p.bytes[i]);
                CHECK(board.answer == BOARD_WAITING || board.answer == BOARD_REFUSED, "place %zu, change %d", place, change);
            }
            EXPECT(GAP(), BOARD_WAITING);
            EXCHANGE('C', "0010", 'D', "0000100000640046");
        }
    }
}

/* A gap behind any beginning of a packet empties the receiver; a packet without one goes on. */
static void test_gaps(void)
{
    const struct packet p = request_to('A', 'C', "0010");

    start_unused(1);
    EXPECT(GAP(), BOARD_WAITING);
    for (size_t n = 0; n < p.size; n++) {
        for (size_t i = 0; i < n; i++)
            EXPECT(BYTE(p.bytes[i]), BOARD_WAITING);
        EXPECT(GAP(), BOARD_WAITING);
        CHECK(holds_nothing(), "something held behind a gap");
        EXCHANGE('C', "0010", 'D', "0000100000640046");
    }
}

/* Refusals 9 to 13 */

/* 13 with none pending, whatever is held; 9 for every byte and gap while one is, after any number of steps. */
static void test_pending(void)
{
    start_used(1);
    EXPECT_REFUSAL(STEP(), BOARD_REFUSED_NO_ERASE_PENDING);
    EXPECT(BYTE(0x01), BOARD_WAITING);
    EXPECT_REFUSAL(STEP(), BOARD_REFUSED_NO_ERASE_PENDING);
    EXPECT(BYTE('0'), BOARD_WAITING);
    EXPECT(GAP(), BOARD_WAITING);
    BEGIN_ERASE('A');
    for (int p = 1; p <= BOARD_ERASE_STEPS; p++) {
        for (int b = 0; b <= 255; b += p % 32 == 0 ? 1 : 64)
            EXPECT_REFUSAL(BYTE((uint8_t)(b + 1)), BOARD_REFUSED_ERASE_PENDING);
        EXPECT_REFUSAL(GAP(), BOARD_REFUSED_ERASE_PENDING);
        if (p < BOARD_ERASE_STEPS)
            run_steps(__LINE__, p, p);
    }
    FINISH_ERASE(BOARD_ERASE_STEPS, 1);
    EXPECT_REFUSAL(STEP(), BOARD_REFUSED_NO_ERASE_PENDING);
    CHECK(holds_nothing(), "something held behind an erase");
}

/* A byte and a step with so much room are refused with 10. */
static void expect_short(int line, size_t room)
{
    byte_into(line, 0x01, room);
    check_refusal(line, BOARD_REFUSED_SHORT_BUFFER);
    step_into(line, room);
    check_refusal(line, BOARD_REFUSED_SHORT_BUFFER);
}

static void expect_all_short(int line)
{
    for (size_t room = 0; room < BOARD_REPLY_ROOM; room++)
        expect_short(line, room);
}

/* 10: every room below 64, idle, with bytes held, while an erase is pending; 64 and more are enough. */
static void test_short_buffers(void)
{
    const struct packet p = request_to('A', 'C', "0010");

    start_unused(1);
    for (size_t i = 0; i + 1 < p.size; i++) {
        expect_all_short(__LINE__);
        EXPECT(byte_into(__LINE__, p.bytes[i], BOARD_REPLY_ROOM + i), BOARD_WAITING);
    }
    expect_all_short(__LINE__);
    byte_into(__LINE__, p.bytes[p.size - 1], 200);
    check_reply(__LINE__, packet_of('0', 'A', 'D', "0000100000640046"));
    BEGIN_ERASE('A');
    expect_all_short(__LINE__);
    run_steps(__LINE__, 1, BOARD_ERASE_STEPS - 1);
    expect_all_short(__LINE__);
    step_into(__LINE__, 200);
    expected[0] = MARK;
    check_reply(__LINE__, packet_of('0', 'A', 'F', erase_reply_text));
}

/* A null pointer with length 0 is a buffer with no bytes. */
static void test_null_pointers(void)
{
    size_t *size = lend(SIZE, sizeof *size);
    uint8_t *refusal = lend(REFUSAL, 1);

    start_unused(1);
    CHECK(board_byte(OWN, 1, NULL, 0, size, refusal) == BOARD_REFUSED, "byte");
    CHECK(*refusal == BOARD_REFUSED_SHORT_BUFFER, "byte, no buffer: refusal %d", *refusal);
    CHECK(board_step(OWN, NULL, 0, size, refusal) == BOARD_REFUSED, "step");
    CHECK(*refusal == BOARD_REFUSED_SHORT_BUFFER, "step, no buffer: refusal %d", *refusal);
    CHECK(board_gap(NULL, 0, board.store, board.store_len, refusal) == BOARD_REFUSED, "gap");
    CHECK(*refusal == BOARD_REFUSED_UNSOUND, "gap, no state: refusal %d", *refusal);
    CHECK(board_gap(board.state, board.state_len, NULL, 0, refusal) == BOARD_REFUSED, "gap");
    CHECK(*refusal == BOARD_REFUSED_UNSOUND, "gap, no store: refusal %d", *refusal);
    CHECK(board_start(1, NULL, 0, NULL, 0, NULL, 0, board.state, board.state_len) == BOARD_REFUSED_NOT_A_STORE, "start, no store");
    CHECK(board_start(1, NULL, 0, NULL, 0, board.store, board.store_len, NULL, 0) == BOARD_REFUSED_UNSOUND, "start, no state");
    CHECK(board_start(1, NULL, 0, NULL, 0, board.store, board.store_len, board.state, board.state_len) == 0, "start, no texts");
    CHECK(board_unused(NULL, 0) == BOARD_REFUSED_NOT_A_STORE, "unused, no store");
    CHECK(is_untouched(SIZE), "a length written");
    EXCHANGE('A', "C216", 'B', "C316");
}

/* 11: a start on stores of other sizes, and with every mark; an identity that is bad too does not matter. */
static void test_stores_refused(void)
{
    uint8_t bytes[ZONE];

    for (size_t n = 0; n <= 300; n++) {
        memset(bytes, n % 2 == 0 ? 0x00 : 0xE7, sizeof bytes);
        if (n != BOARD_STORE_SIZE) {
            CHECK(start_with(1, "", 0, "", 0, bytes, n, BOARD_STATE_SIZE) == BOARD_REFUSED_NOT_A_STORE, "start on %zu bytes", n);
            CHECK(start_with(0, "", 0, "", 0, bytes, n, 0) == BOARD_REFUSED_NOT_A_STORE, "start of ID 0 on %zu bytes", n);
        }
    }
    for (int mark = 0; mark <= 255; mark++) {
        int is_known = mark == OLD_MARK || mark == MARK || mark == ERASE_MARK;

        put_used(expected);
        expected[0] = (uint8_t)mark;
        CHECK(start(0) == (is_known ? BOARD_REFUSED_UNSOUND : BOARD_REFUSED_NOT_A_STORE), "start of ID 0 on mark %02X",
              (unsigned)mark);
        CHECK(start(1) == (is_known ? 0 : BOARD_REFUSED_NOT_A_STORE), "start on mark %02X", (unsigned)mark);
    }
}

/* 12: identities out of range, on an unused store, on one without programs and on one whose erase is pending. */
static void test_identities_refused(void)
{
    static const uint8_t marks[] = {OLD_MARK, MARK, ERASE_MARK};
    uint8_t text[32] = {0};

    for (size_t mark = 0; mark < COUNT(marks); mark++) {
        for (int id = 0; id <= 255; id++) {
            put_unused(expected);
            expected[0] = marks[mark];
            CHECK(start(id) == (id >= 1 && id <= 8 ? 0 : BOARD_REFUSED_UNSOUND), "ID %d", id);
        }
        expected[0] = marks[mark];
        for (size_t n = 0; n <= 32; n++) {
            int result = n <= 16 ? 0 : BOARD_REFUSED_UNSOUND;

            CHECK(start_with(8, text, n, "", 0, expected, BOARD_STORE_SIZE, BOARD_STATE_SIZE) == result, "serial number of %zu", n);
            CHECK(start_with(8, "", 0, text, n, expected, BOARD_STORE_SIZE, BOARD_STATE_SIZE) == result, "model of %zu", n);
        }
    }
}

/* Every call is refused with 12. */
static void expect_unsound(int line)
{
    byte_into(line, 0x01, BOARD_REPLY_ROOM);
    check_refusal(line, BOARD_REFUSED_UNSOUND);
    byte_into(line, 'A', BOARD_REPLY_ROOM);
    check_refusal(line, BOARD_REFUSED_UNSOUND);
    step_into(line, BOARD_REPLY_ROOM);
    check_refusal(line, BOARD_REFUSED_UNSOUND);
    gap_at(line);
    check_refusal(line, BOARD_REFUSED_UNSOUND);
    expect_short(line, 0); /* 10 comes first */
    expect_short(line, BOARD_REPLY_ROOM - 1);
}

#define EXPECT_UNSOUND() expect_unsound(__LINE__)

/* 12: each field over every value of its width, at a start and under a running board; with E7h no field is looked at. */
static void test_fields(void)
{
    for (int field = 0; field < FIELDS; field++) {
        for (unsigned value = 0; value < 1u << fields[field].width; value++) {
            int is_good = value >= fields[field].first && value <= fields[field].last;

            start_used(1);
            put_field(expected, (enum field)field, value);
            memcpy(board.store, expected, sizeof expected);
            if (is_good)
                EXPECT(BYTE(0x01), BOARD_WAITING);
            else
                EXPECT_UNSOUND();
            CHECK(start(1) == (is_good ? 0 : BOARD_REFUSED_UNSOUND), "field %d: %u", field, value);
            expected[0] = OLD_MARK;
            CHECK(start(1) == (is_good ? 0 : BOARD_REFUSED_UNSOUND), "field %d: %u, no programs", field, value);
            expected[0] = ERASE_MARK;
            CHECK(start(1) == 0, "field %d: %u, erase pending", field, value);
        }
    }
}

/* 12: each hour with each minute that a program's bits can tell, at a start and under a running board; else only with mark 01h. */
static void try_stored_time(unsigned program, enum part hour_part, unsigned hour, unsigned minute)
{
    int is_good = is_time(hour, minute);

    put_part(expected, program, hour_part, hour);
    put_part(expected, program, hour_part + 1, minute);
    memcpy(board.store, expected, sizeof expected);
    if (is_good)
        EXPECT(GAP(), BOARD_WAITING);
    else
        EXPECT_REFUSAL(GAP(), BOARD_REFUSED_UNSOUND);
    CHECK(start(1) == (is_good ? 0 : BOARD_REFUSED_UNSOUND), "program %u: %u:%u", program, hour, minute);
    expected[0] = ERASE_MARK;
    CHECK(start(1) == 0, "program %u: %u:%u, erase pending", program, hour, minute);
    expected[0] = OLD_MARK;
    CHECK(start(1) == 0, "program %u: %u:%u, no programs", program, hour, minute);
}

static void test_stored_programs(void)
{
    for (unsigned i = 0; i < 2 * PROGRAMS * 32 * 64; i++) {
        enum part part = i % 2 == 0 ? ON_HOUR : OFF_HOUR;

        if (i % 64 == 0)
            start_used(1);
        try_stored_time(i / 2 % PROGRAMS, part, i / 2 / PROGRAMS / 64, i / 2 / PROGRAMS % 64);
    }
    start_used(1);
    put_part(board.store, 6, ON_HOUR, 25);
    EXPECT_UNSOUND();
}

/* A start on 00h: unused programs, whatever stands in their place, and mark 01h; all other bytes stay. It is done once. */
static void test_conversions(void)
{
    for (int round = 0; round < 200; round++) {
        put_used(expected);
        expected[0] = OLD_MARK;
        if (round % 2 == 0)
            random_bytes(expected + PROGRAMS_AT, PROGRAMS_END - PROGRAMS_AT);
        if (round == 0)
            memset(expected + PROGRAMS_AT, 0xFF, PROGRAMS_END - PROGRAMS_AT);
        START(1);
        EXCHANGE('A', "C22106", 'B', "C32106183C183C0000000000000000000000");
        START(1);
        try_program(good_program);
        START(1);
        EXCHANGE('A', "C22102", 'B', "C321020700171E111F060000000000000000");
    }
    start_used(1);
    board.store[0] = OLD_MARK; /* no board runs on such a store */
    EXPECT_UNSOUND();
}

/* A state of another size is no board: at a start behind 11, and at every call. */
static void test_state_sizes(void)
{
    static const size_t sizes[] = {0, 1, 110, 112, 222};
    uint8_t bytes[ZONE];

    for (size_t i = 0; i < COUNT(sizes); i++) {
        put_used(expected);
        CHECK(start_with(1, "", 0, "", 0, expected, BOARD_STORE_SIZE, sizes[i]) == BOARD_REFUSED_UNSOUND, "state of %zu", sizes[i]);
        expected[0] = OLD_MARK;
        CHECK(start_with(1, "", 0, "", 0, expected, BOARD_STORE_SIZE, sizes[i]) == BOARD_REFUSED_UNSOUND, "state of %zu", sizes[i]);
        expected[0] = 0x02;
        CHECK(start_with(1, "", 0, "", 0, expected, BOARD_STORE_SIZE, sizes[i]) == BOARD_REFUSED_NOT_A_STORE, "state of %zu",
              sizes[i]);
        for (int pending = 0; pending <= 1; pending++) {
            start_used(1);
            if (pending)
                BEGIN_ERASE('A');
            memset(bytes, 0, sizeof bytes);
            memcpy(bytes, board.state, BOARD_STATE_SIZE);
            board.state = lend_copy(STATE, bytes, sizes[i]);
            board.state_len = sizes[i];
            EXPECT_UNSOUND();
        }
    }
}

/* A store of another size under a running board. */
static void test_store_sizes(void)
{
    static const size_t sizes[] = {0, 1, 11, 127, 129, 256};
    uint8_t bytes[ZONE];

    for (size_t i = 0; i < COUNT(sizes); i++) {
        for (int pending = 0; pending <= 1; pending++) {
            start_used(1);
            if (pending)
                BEGIN_ERASE('A');
            memset(bytes, 0, sizeof bytes);
            memcpy(bytes, expected, sizeof expected);
            board.store = lend_copy(STORE, bytes, sizes[i]);
            board.store_len = sizes[i];
            EXPECT_UNSOUND();
        }
    }
}

/* States that no start gave. A random one may happen to be sound; then any answer will do that keeps what holds of every call. */
static void test_garbage_states(void)
{
    start_used(1);
    memset(board.state, 0xFF, BOARD_STATE_SIZE);
    EXPECT_UNSOUND();
    memset(board.state, 0x00, BOARD_STATE_SIZE);
    EXPECT_UNSOUND();
    for (int round = 0; round < 3000; round++) {
        start_used(1);
        if (round % 3 == 0)
            BEGIN_ERASE('A');
        if (round % 2 == 0)
            random_bytes(board.state, BOARD_STATE_SIZE);
        else
            board.state[random_number() % BOARD_STATE_SIZE] ^= (uint8_t)(1 + random_number() % 255);
        for (int call = 0; call < 6; call++) {
            BYTE((uint8_t)random_number());
            STEP();
            GAP();
        }
    }
}

/* State and store that don't go together, and an erased part that is not as it was left. */
static void test_unsound_erases(void)
{
    start_used(1);
    board.store[0] = 0xE7;
    EXPECT_UNSOUND();
    start_used(1);
    BEGIN_ERASE('A');
    board.store[0] = OLD_MARK;
    EXPECT_UNSOUND();
    board.store[0] = MARK;
    EXPECT_UNSOUND();
    for (int p = 1; p <= BOARD_ERASE_STEPS; p++) {
        start_used(1);
        BEGIN_ERASE('A');
        run_steps(__LINE__, 1, p - 1);
        for (int place = 1; place < BOARD_STORE_SIZE; place++) {
            board.store[place] ^= 0x10;
            if (place < p)
                EXPECT_REFUSAL(STEP(), BOARD_REFUSED_UNSOUND);
            else
                EXPECT_REFUSAL(BYTE(0x01), BOARD_REFUSED_ERASE_PENDING);
            board.store[place] ^= 0x10;
        }
    }
}

/* Every combination of a short buffer, an unsound store and a pending erase: 10, then 12, then 9 or 13. */
static void test_order_of_checks(void)
{
    for (int faults = 0; faults < 8; faults++) {
        int is_short = faults & 1, is_unsound = faults & 2, is_pending = faults & 4;
        size_t room = is_short ? BOARD_REPLY_ROOM - 1 : BOARD_REPLY_ROOM;

        start_used(1);
        if (is_pending)
            BEGIN_ERASE('A');
        if (is_unsound)
            board.store[0] ^= 0x55;
        byte_into(__LINE__, 'A', room);
        check_refusal(__LINE__, is_short ? 10 : is_unsound ? 12 : is_pending ? 9 : 1);
        gap_at(__LINE__);
        if (is_unsound || is_pending)
            check_refusal(__LINE__, is_unsound ? 12 : 9);
        step_into(__LINE__, room);
        if (is_short || is_unsound || !is_pending)
            check_refusal(__LINE__, is_short ? 10 : is_unsound ? 12 : 13);
        else
            CHECK(board.answer == BOARD_MORE, "a step refused");
    }
}

/* The erase */

/* A cut after each number of steps, then a start and all 128 steps, for requests to the board itself and to all. */
static void test_cuts(void)
{
    for (int done = 0; done < BOARD_ERASE_STEPS; done++) {
        for (int to_all = 0; to_all <= 1; to_all++) {
            start_used(1);
            BEGIN_ERASE(to_all ? '*' : 'A');
            run_steps(__LINE__, 1, done);
            START(1);
            EXPECT_REFUSAL(GAP(), BOARD_REFUSED_ERASE_PENDING);
            FINISH_ERASE(1, 0);
            START(1);
            EXCHANGE('A', "F012", 'B', "F112");
            EXCHANGE('A', "C22106", 'B', "C32106183C183C0000000000000000000000");
        }
    }
    start_used(1);
    BEGIN_ERASE('A');
    FINISH_ERASE(1, 1);
    START(1); /* a cut behind the last step */
    EXPECT_REFUSAL(STEP(), BOARD_REFUSED_NO_ERASE_PENDING);
}

/* Two cuts in one erase, the second after fewer, as many or more steps than the first. */
static void test_two_cuts(void)
{
    for (int first = 0; first < BOARD_ERASE_STEPS; first += 9) {
        for (int second = 0; second < BOARD_ERASE_STEPS; second += 7) {
            start_used(1);
            BEGIN_ERASE('A');
            run_steps(__LINE__, 1, first);
            START(1);
            run_steps(__LINE__, 1, second);
            START(1);
            FINISH_ERASE(1, 0);
        }
    }
}

/* An erase with no cut, to the board and to all, from any store; the next erase is like the first. */
static void test_erases(void)
{
    start_used(1);
    for (int round = 0; round < 20; round++) {
        BEGIN_ERASE(round % 2 ? '*' : 'A');
        FINISH_ERASE(1, round % 2 == 0);
        EXCHANGE('C', "0010", 'D', "0000100000640046");
        put_used(expected);
        START(1);
    }
}

/* The digits of a tag pass through the receiver; two boards, of which one had a tag, are the same bytes once both are erased. */
static void test_past(void)
{
    static const char tag[] = "HOTEL RITZ R.512";
    uint8_t states[2][BOARD_STATE_SIZE];

    for (int i = 0; i < 2; i++) {
        start_unused(5);
        if (i == 0)
            try_tag((const uint8_t *)tag, strlen(tag), "");
        BEGIN_ERASE(own_address());
        FINISH_ERASE(1, 1);
        memcpy(states[i], board.state, sizeof states[i]);
    }
    CHECK(memcmp(states[0], states[1], sizeof states[0]) == 0, "two erased boards differ");
}

/* With E7h nothing else of a store matters at a start. */
static void test_starts_on_erases(void)
{
    for (int round = 0; round < 200; round++) {
        random_bytes(expected, sizeof expected);
        if (round == 0)
            memset(expected, 0xFF, sizeof expected);
        expected[0] = 0xE7;
        START(1);
        FINISH_ERASE(1, 0);
    }
}

/* A receiver that holds something loses it in a cut, and an erase does not bring it back. */
static void test_cut_packets(void)
{
    start_used(1);
    EXPECT(BYTE(0x01), BOARD_WAITING);
    START(1);
    CHECK(holds_nothing(), "something held behind a start");
}

static void test_unused(void)
{
    uint8_t bytes[BOARD_STORE_SIZE];
    uint8_t *store;

    for (size_t n = 0; n <= 300; n++) {
        store = lend(STORE, n);
        if (n != BOARD_STORE_SIZE) {
            CHECK(board_unused(store, n) == BOARD_REFUSED_NOT_A_STORE, "unused store of %zu bytes", n);
            CHECK(is_untouched(STORE), "unused store of %zu bytes: refused, but written", n);
        }
    }
    put_unused(bytes);
    store = lend(STORE, BOARD_STORE_SIZE);
    CHECK(board_unused(store, BOARD_STORE_SIZE) == 0, "unused store refused");
    CHECK(holds_only(STORE, store, bytes, sizeof bytes), "another unused store");
}

static const char *volatile subject;

#define RUN(test) (subject = #test, test())

static void test_packets(void)
{
    RUN(test_unused);
    RUN(test_lessons);
    RUN(test_bytes_inside);
    RUN(test_reads);
    RUN(test_settings);
    RUN(test_set_to_all);
    RUN(test_standby);
    RUN(test_modes);
    RUN(test_dates);
    RUN(test_century);
    RUN(test_tags);
    RUN(test_worked_program);
    RUN(test_programs);
    RUN(test_program_times);
    RUN(test_program_numbers);
    RUN(test_programs_to_all);
    RUN(test_stored_dates);
    RUN(test_serials_and_models);
    RUN(test_no_start);
    RUN(test_headers);
    RUN(test_digits);
    RUN(test_spellings);
    RUN(test_lengths);
    RUN(test_faulty_packets);
    RUN(test_destinations);
    RUN(test_changed_bytes);
    RUN(test_gaps);
}

static void test_boards(void)
{
    RUN(test_pending);
    RUN(test_short_buffers);
    RUN(test_null_pointers);
    RUN(test_stores_refused);
    RUN(test_identities_refused);
    RUN(test_fields);
    RUN(test_stored_programs);
    RUN(test_conversions);
    RUN(test_state_sizes);
    RUN(test_store_sizes);
    RUN(test_garbage_states);
    RUN(test_unsound_erases);
    RUN(test_order_of_checks);
    RUN(test_cuts);
    RUN(test_two_cuts);
    RUN(test_erases);
    RUN(test_past);
    RUN(test_starts_on_erases);
    RUN(test_cut_packets);
}

/* Ends the program where the library touched a guarded page. */
static void touched_outside(int signal)
{
    static const char said[] = ": memory outside a lent buffer touched\n";

    (void)signal;
    if (write(STDERR_FILENO, subject, strlen(subject)) < 0 || write(STDERR_FILENO, said, sizeof said - 1) < 0)
        _exit(2);
    _exit(1);
}

int main(void)
{
    random_state = seed;
    make_pages();
    signal(SIGSEGV, touched_outside);
    for (at_end = 0; at_end <= 1; at_end++) {
        test_packets();
        test_boards();
    }
    if (failures > 0) {
        fprintf(stderr, "board: %lu of %lu checks failed, seed %llX\n", failures, checks, (unsigned long long)seed);
        return 1;
    }
    printf("board: %lu checks passed, seed %llX\n", checks, (unsigned long long)seed);
    return 0;
}
