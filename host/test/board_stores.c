/*
 * Watches each machine store that a call of board.h makes into the board's store: its place, its width and its value, in order.
 *
 * What is proved of a call is the plan of what it stores, and what the store holds at its end. A power cut keeps what was stored
 * until then, so the way there is tried here, with the archive that programs link. What is expected is worked out here: the bytes
 * from document 01 and document 02, and their order, of which these say nothing but for an erase and a conversion,
 * from the definitions in crates/store/specs and crates/schedule/specs.
 *
 * The store lies in a page that may only be read. An instruction that stores there faults, and is then run twice by itself, from
 * the same registers: with each bit of the page turned over, and with the page as it was. A byte that it writes differs in one of
 * the two runs from what stood there, even where it writes the value that was there. So the width seen is the instruction's own.
 *
 * Faults, single steps and registers are those of Linux on x86-64.
 */
#define _GNU_SOURCE /* REG_RIP, REG_EFL, memrchr, MAP_ANONYMOUS, timegm */

#include "board.h"
#include "calendar.h"

#include <setjmp.h>
#include <signal.h>
#include <stdarg.h>
#include <stdio.h>
#include <stdlib.h>
#include <string.h>
#include <sys/mman.h>
#include <ucontext.h>
#include <unistd.h>

#define COUNT(array) (sizeof(array) / sizeof(array)[0])

/* Counting */

enum { FAILURES_SHOWN = 20 };

static unsigned long checks, failures, calls, stores;

#define CHECK(good, ...) check((good), __LINE__, __VA_ARGS__)

/* One check; a failure shows its line, the call and the case that `format` tells. */
__attribute__((format(printf, 3, 4))) static void check(int good, int line, const char *format, ...)
{
    va_list values;

    checks++;
    if (good)
        return;
    if (++failures > FAILURES_SHOWN)
        return;
    fprintf(stderr, "%s:%d: call %lu: ", __FILE__, line, calls);
    va_start(values, format);
    vfprintf(stderr, format, values);
    va_end(values);
    fputc('\n', stderr);
}

/* Random numbers from a fixed seed */

static const uint64_t seed = 0x5EED0006;
static uint64_t random_state;

static uint64_t random_number(void)
{
    uint64_t z = random_state += 0x9E3779B97F4A7C15;

    z = (z ^ z >> 30) * 0xBF58476D1CE4E5B9;
    z = (z ^ z >> 27) * 0x94D049BB133111EB;
    return z ^ z >> 31;
}

static unsigned below(size_t n)
{
    return (unsigned)(random_number() % n);
}

static int one_in(size_t n)
{
    return below(n) == 0;
}

static void random_bytes(uint8_t *bytes, size_t n)
{
    for (size_t i = 0; i < n; i++)
        bytes[i] = (uint8_t)random_number();
}

/* Lists of stores */

enum { MOST_STORES = 40, TAG_STORES = 34, CONVERSION_STORES = 36, PROGRAM_STORES = 5, ENTRIES = 64 };

struct entry {
    long place;    /* of the first byte, counted from the beginning of the store */
    long width;    /* in bytes; 0 where the instruction does more than store, for then this cannot be seen */
    uint8_t value; /* of the first byte */
};

/* Stores in the order in which they are made. All are counted, and no more are kept than there is room for. */
struct entries {
    size_t count;
    struct entry list[ENTRIES];
};

static void add(struct entries *entries, struct entry entry)
{
    if (entries->count < ENTRIES)
        entries->list[entries->count] = entry;
    entries->count++;
}

static void apply(const struct entries *entries, uint8_t *store)
{
    for (size_t i = 0; i < entries->count && i < ENTRIES; i++) {
        if (entries->list[i].place >= 0 && entries->list[i].place < BOARD_STORE_SIZE)
            store[entries->list[i].place] = entries->list[i].value;
    }
}

/* The watch */

enum { PAGE = 4096, WRITE_FAULT = 0x2, TRAP_FLAG = 0x100, ARITHMETIC_FLAGS = 0x8D5 };

/* The runs of an instruction that stores. */
enum run { NOT_RUNNING, ON_COMPLEMENT, ON_CONTENTS };

/* The handlers run inside a call that the compiler knows nothing of, as if it called them, so none of this need be volatile. */
static struct {
    uint8_t *page, *store;
    int is_on;
    struct entries seen;    /* what the call has stored */
    enum run run;           /* of the instruction that faulted */
    gregset_t registers;    /* as the instruction found them */
    uint8_t contents[PAGE]; /* of the page, as the instruction found them */
    uint8_t is_written[PAGE];
    int only_stores; /* whether the instruction has left all registers and flags as they were */
    size_t stop;     /* the call is left at so many stores from here on; 0: at none */
    sigjmp_buf left;
} watch;

static const char *volatile subject;

/* Ends the program from inside a handler. */
static void give_up(const char *said)
{
    if (write(STDERR_FILENO, subject, strlen(subject)) < 0 || write(STDERR_FILENO, said, strlen(said)) < 0)
        _exit(2);
    _exit(1);
}

static void protect(int access)
{
    if (mprotect(watch.page, PAGE, access) != 0)
        give_up(": the page of the store cannot be protected\n");
}

/* Has the instruction run by itself, from the registers that it found. */
static void run_again(ucontext_t *context, enum run run)
{
    memcpy(context->uc_mcontext.gregs, watch.registers, sizeof watch.registers);
    context->uc_mcontext.gregs[REG_EFL] |= TRAP_FLAG;
    watch.run = run;
}

/*
 * The run with each bit turned over. All flags are set for it, and no result of arithmetic leaves them so. That finds an
 * instruction which combines something with what stands there: a byte that it writes back unchanged differs in no run.
 */
static void run_on_complement(ucontext_t *context)
{
    for (size_t i = 0; i < PAGE; i++)
        watch.page[i] = watch.contents[i] ^ 0xFF;
    run_again(context, ON_COMPLEMENT);
    context->uc_mcontext.gregs[REG_EFL] |= ARITHMETIC_FLAGS;
}

/* The 16 general registers come first in a context, in front of the place in the code. */
static void note_complement(const ucontext_t *context)
{
    const greg_t *registers = context->uc_mcontext.gregs;

    for (size_t i = 0; i < PAGE; i++)
        watch.is_written[i] = (watch.page[i] ^ watch.contents[i]) != 0xFF;
    watch.only_stores = memcmp(registers, watch.registers, REG_RIP * sizeof *registers) == 0 &&
                        (registers[REG_EFL] & ARITHMETIC_FLAGS) == ARITHMETIC_FLAGS;
}

/* The store that the instruction has made. */
static void note_store(void)
{
    struct entry entry = {.place = -1};
    const uint8_t *first, *last;

    for (size_t i = 0; i < PAGE; i++)
        watch.is_written[i] |= watch.page[i] != watch.contents[i];
    first = memchr(watch.is_written, 1, PAGE);
    last = memrchr(watch.is_written, 1, PAGE);
    if (first != NULL) {
        const uint8_t *at = watch.page + (first - watch.is_written);

        entry.place = at - watch.store;
        entry.width = watch.only_stores ? last - first + 1 : 0;
        entry.value = *at;
    }
    add(&watch.seen, entry);
    stores++;
}

/* An instruction that stores into the page, and has not done so yet: its first run, or the end of the call. */
static void on_fault(int signal, siginfo_t *info, void *given)
{
    ucontext_t *context = given;
    const uint8_t *at = info->si_addr;
    int is_write = (context->uc_mcontext.gregs[REG_ERR] & WRITE_FAULT) != 0;

    (void)signal;
    if (watch.run != NOT_RUNNING || !is_write || at < watch.page || at >= watch.page + PAGE)
        give_up(": memory outside the store touched\n");
    if (watch.stop > 0 && --watch.stop == 0)
        siglongjmp(watch.left, 1);
    memcpy(watch.registers, context->uc_mcontext.gregs, sizeof watch.registers);
    memcpy(watch.contents, watch.page, PAGE);
    protect(PROT_READ | PROT_WRITE);
    run_on_complement(context);
}

/* The instruction has run: its second run, or the call goes on behind it. */
static void on_trap(int signal, siginfo_t *info, void *given)
{
    ucontext_t *context = given;

    (void)signal;
    (void)info;
    switch (watch.run) {
    case NOT_RUNNING:
        give_up(": a trap that was not set\n");
        break;
    case ON_COMPLEMENT:
        note_complement(context);
        memcpy(watch.page, watch.contents, PAGE);
        run_again(context, ON_CONTENTS);
        break;
    case ON_CONTENTS:
        note_store();
        protect(PROT_READ);
        context->uc_mcontext.gregs[REG_EFL] &= ~(greg_t)TRAP_FLAG;
        watch.run = NOT_RUNNING;
        break;
    }
}

/* Sets a handler. It may be left by a jump, so its signal is not held back while it runs. */
static void handle(int signal, void (*handler)(int, siginfo_t *, void *))
{
    struct sigaction action = {.sa_sigaction = handler, .sa_flags = SA_SIGINFO | SA_ONSTACK | SA_NODEFER};

    if (sigemptyset(&action.sa_mask) != 0 || sigaction(signal, &action, NULL) != 0) {
        perror("board_stores");
        exit(1);
    }
}

/* Watches from here on or does not: a store that is watched takes far longer than the call around it. */
static void set_watch(int is_on)
{
    watch.is_on = is_on;
    protect(is_on ? PROT_READ : PROT_READ | PROT_WRITE);
}

/* The page stands between two that may not be touched. The handlers have a stack of their own and so leave the call's alone. */
static void begin_watch(void)
{
    static uint8_t stack[1 << 16];
    const stack_t own = {.ss_sp = stack, .ss_size = sizeof stack};
    uint8_t *three = mmap(NULL, 3 * PAGE, PROT_NONE, MAP_PRIVATE | MAP_ANONYMOUS, -1, 0);

    if (three == MAP_FAILED || sigaltstack(&own, NULL) != 0) {
        perror("board_stores");
        exit(1);
    }
    watch.page = three + PAGE;
    set_watch(1);
    handle(SIGSEGV, on_fault);
    handle(SIGTRAP, on_trap);
}

/* Puts bytes into the store that no call stores. */
static void put_store(const uint8_t *bytes)
{
    int is_on = watch.is_on;

    set_watch(0);
    memcpy(watch.store, bytes, BOARD_STORE_SIZE);
    set_watch(is_on);
}

/* Runs something until its k-th store, which is not made; the result is whether it came so far. */
static int is_left_at(size_t k, void (*run)(void))
{
    watch.stop = k;
    if (sigsetjmp(watch.left, 0) != 0)
        return 1;
    run();
    watch.stop = 0;
    return 0;
}

/* Packets, put together here */

enum { LONGEST = 128 };

struct packet {
    size_t size;
    uint8_t bytes[LONGEST];
};

/* The exclusive or of all bytes after SOH through ETX. */
static uint8_t check_code(const uint8_t *packet, size_t size)
{
    uint8_t code = 0;

    for (size_t i = 1; i < size - 2; i++)
        code ^= packet[i];
    return code;
}

struct request {
    char type, text[80];
};

__attribute__((format(printf, 2, 3))) static struct request request_of(char type, const char *format, ...)
{
    struct request request = {.type = type};
    va_list values;

    va_start(values, format);
    vsnprintf(request.text, sizeof request.text, format, values);
    va_end(values);
    return request;
}

static struct packet packet_of(int destination, struct request request)
{
    size_t length = strlen(request.text) + 2;
    struct packet p = {.size = length + 9};
    char header[8];

    snprintf(header, sizeof header, "%c0%c0%c%02X", 0x01, destination, request.type, (unsigned)length & 0xFF);
    memcpy(p.bytes, header, 7);
    p.bytes[7] = 0x02;
    memcpy(p.bytes + 8, request.text, length - 2);
    p.bytes[p.size - 3] = 0x03;
    p.bytes[p.size - 2] = check_code(p.bytes, p.size);
    p.bytes[p.size - 1] = 0x0D;
    return p;
}

/* Fields */

/* The fields of bytes 1 to 11 by their widths, most significant bit first, with their first and last values. */
enum field {
    BACKLIGHT,
    INPUT,
    BALANCE,
    PIP_H,
    PIP_V,
    AMBIENT_LOW,
    AMBIENT_HIGH,
    TILE,
    POWER,
    YEAR,
    MONTH,
    DAY,
    WEEKDAY,
    HOUR,
    MINUTE,
    TAG_LENGTH,
    FORMER_LENGTH,
    FIELDS
};

static const struct {
    unsigned width, first, last;
} fields[FIELDS] = {{7, 0, 100}, {2, 0, 2},  {6, 0, 60}, {7, 0, 100}, {7, 0, 100}, {7, 0, 100}, {7, 0, 100}, {2, 1, 2}, {1, 0, 1},
                    {7, 0, 99},  {4, 1, 12}, {5, 1, 31}, {3, 0, 6},   {5, 0, 23},  {6, 0, 59},  {5, 0, 16},  {5, 0, 16}};

/* The first bit of a field; bit 0 is the most significant one of byte 0. */
static unsigned first_bit(int field)
{
    unsigned bit = 8;

    for (int before = 0; before < field; before++)
        bit += fields[before].width;
    return bit;
}

static unsigned get_field(const uint8_t *store, int field)
{
    unsigned from = first_bit(field), value = 0;

    for (unsigned bit = from; bit < from + fields[field].width; bit++)
        value = 2 * value + (store[bit / 8] >> (7 - bit % 8) & 1);
    return value;
}

static void put_bits(uint8_t *store, unsigned from, unsigned width, unsigned value)
{
    for (unsigned bit = from + width; bit > from; value /= 2) {
        uint8_t mask = (uint8_t)(0x80 >> --bit % 8);

        store[bit / 8] = (uint8_t)(value % 2 ? store[bit / 8] | mask : store[bit / 8] & ~mask);
    }
}

static void put_field(uint8_t *store, int field, unsigned value)
{
    put_bits(store, first_bit(field), fields[field].width, value);
}

static unsigned random_value(int field)
{
    return fields[field].first + below(fields[field].last - fields[field].first + 1);
}

/* The marks: of a store without programs, of one with them, and while an erase is pending. */
enum { OLD_MARK = 0x00, MARK = 0x01, ERASE_MARK = 0xE7 };

/* Seven programs of five bytes each: ON_HOUR, ON_MIN, OFF_HOUR, OFF_MIN, INPUT, WEEK, FL and six spare bits. */
enum { PROGRAMS = 7, PROGRAM_SIZE = 5, PROGRAMS_AT = 44, PARTS = 7, ENABLE_BIT = 31 };

static const unsigned part_widths[PARTS] = {5, 6, 5, 6, 2, 7, 3};

/* The unused board's bytes; make_unused puts the programs there. */
static uint8_t unused[BOARD_STORE_SIZE] = {MARK, 0x8C, 0x3C, 0xC9, 0x91, 0x4A, 0x0C, 0x00, 0x87};

/* The first byte of a program. */
static unsigned program_place(unsigned program)
{
    return PROGRAMS_AT + PROGRAM_SIZE * program;
}

static void make_unused(void)
{
    static const uint8_t program[PROGRAM_SIZE] = {0xC7, 0x98, 0xF0, 0x00, 0x00};

    for (unsigned k = 0; k < PROGRAMS; k++)
        memcpy(unused + program_place(k), program, sizeof program);
}

static void put_program(uint8_t *store, unsigned program, const unsigned *parts)
{
    unsigned bit = 8 * program_place(program);

    for (int part = 0; part < PARTS; part++) {
        put_bits(store, bit, part_widths[part], parts[part]);
        bit += part_widths[part];
    }
}

/* A time of day, or none: hour 24 and minute 60. */
static void random_time(unsigned *hour_and_minute)
{
    int is_set = !one_in(4);

    hour_and_minute[0] = is_set ? below(24) : 24;
    hour_and_minute[1] = is_set ? below(60) : 60;
}

static void put_random_program(uint8_t *store, unsigned program)
{
    unsigned parts[PARTS] = {0, 0, 0, 0, below(4), below(128), below(8)};

    random_time(parts);
    random_time(parts + 2);
    put_program(store, program, parts);
}

static const struct setting {
    unsigned pair, largest;
    int field;
} settings[] = {{0x0010, 100, BACKLIGHT}, {0x0060, 17, INPUT},        {0x0093, 60, BALANCE},       {0x0274, 100, PIP_H},
                {0x0275, 100, PIP_V},     {0x1033, 100, AMBIENT_LOW}, {0x1034, 100, AMBIENT_HIGH}, {0x104A, 2, TILE}};

/* What a setting keeps of a value; -1 where the value is not accepted. */
static long kept(const struct setting *setting, long value)
{
    if (setting->field == INPUT)
        return value == 1 ? 0 : value == 3 ? 1 : value == 4 || value == 17 ? 2 : -1;
    return value >= fields[setting->field].first && value <= fields[setting->field].last ? value : -1;
}

/* What a call is due to answer and to store */

/* The board by document 01. */
static struct {
    int id;
    uint8_t store[BOARD_STORE_SIZE], held[64 + 9];
    size_t len;
    int is_pending, is_owed;
    unsigned place; /* the next one of a pending erase */
} model;

static struct {
    int answer, refusal;
    struct entries plan;
} due;

/* The kinds of calls that store, and how many of each were due. */
enum kind {
    SET,
    POWER_WRITE,
    DATE_WRITE,
    TAG_WRITE,
    PROGRAM_WRITE,
    ENABLE_WRITE,
    ACCEPTANCE,
    CLEARING,
    LAST_STEP,
    CONVERSION,
    KINDS
};

static unsigned long tried[KINDS];

static void expect(int answer, int refusal)
{
    due.answer = answer;
    due.refusal = refusal;
    due.plan.count = 0;
}

static void expect_refusal(int refusal)
{
    expect(BOARD_REFUSED, refusal);
}

static void plan(enum kind kind, unsigned place, uint8_t value)
{
    tried[kind] += due.plan.count == 0;
    add(&due.plan, (struct entry){.place = place, .width = 1, .value = value});
}

static void plan_range(enum kind kind, unsigned place, const uint8_t *bytes, size_t n)
{
    for (size_t i = 0; i < n; i++)
        plan(kind, place + (unsigned)i, bytes[i]);
}

/* The bytes of a changed store that hold a bit of these fields, in ascending order, changed or not. */
static void plan_fields(enum kind kind, const uint8_t *changed, int first, int last)
{
    unsigned from = first_bit(first) / 8, behind = (first_bit(last) + fields[last].width + 7) / 8;

    plan_range(kind, from, changed + from, behind - from);
}

/* The number that hexadecimal digits tell, in either case, or -1. */
static long number(const uint8_t *digits, size_t n)
{
    static const char all[] = "0123456789ABCDEF";
    long value = 0;

    for (size_t i = 0; i < n; i++) {
        int capital = digits[i] >= 'a' && digits[i] <= 'f' ? digits[i] - 'a' + 'A' : digits[i];
        const char *digit = capital == '\0' ? NULL : strchr(all, capital);

        if (digit == NULL)
            return -1;
        value = 16 * value + (digit - all);
    }
    return value;
}

/* The erase is accepted in standby too. */
static void expect_begin(void)
{
    model.is_pending = 1;
    model.is_owed = due.answer == BOARD_REPLY;
    model.place = 1;
    due.answer = BOARD_BEGUN;
    plan(ACCEPTANCE, 0, ERASE_MARK);
}

static void expect_setting(const struct setting *setting, long value)
{
    uint8_t changed[BOARD_STORE_SIZE];
    long stored = kept(setting, value);

    if (stored < 0 || get_field(model.store, POWER) == 0)
        return;
    memcpy(changed, model.store, sizeof changed);
    put_field(changed, setting->field, (unsigned)stored);
    plan_fields(SET, changed, setting->field, setting->field);
}

static void expect_set(const uint8_t *digits)
{
    long pair = number(digits, 4), value = number(digits + 4, 4);

    if (pair == 0xF001 && value == 1)
        expect_begin();
    for (size_t i = 0; i < COUNT(settings); i++) {
        if (pair == settings[i].pair)
            expect_setting(&settings[i], value);
    }
}

static void expect_power(const uint8_t *digits)
{
    uint8_t changed[BOARD_STORE_SIZE];
    long mode = number(digits, 4);

    if (mode != 1 && mode != 4)
        return;
    memcpy(changed, model.store, sizeof changed);
    put_field(changed, POWER, mode == 1);
    plan_fields(POWER_WRITE, changed, POWER, POWER);
}

static void expect_date(const uint8_t *digits)
{
    uint8_t changed[BOARD_STORE_SIZE];
    unsigned date[7];

    for (int i = 0; i < 7; i++) {
        if (number(digits + 2 * i, 2) < 0)
            return;
        date[i] = (unsigned)number(digits + 2 * i, 2);
    }
    if (!date_is_good(date))
        return;
    memcpy(changed, model.store, sizeof changed);
    for (int i = 0; i < 6; i++)
        put_field(changed, YEAR + i, date[i]);
    plan_fields(DATE_WRITE, changed, YEAR, MINUTE);
}

/* The old tag, all 16 bytes, becomes the former one; then the new tag; then both lengths. */
static void expect_tag(const uint8_t *digits, size_t n)
{
    uint8_t changed[BOARD_STORE_SIZE], tag[16] = {0};

    for (size_t i = 0; i < n; i++) {
        if (number(digits + 2 * i, 2) < 0)
            return;
        tag[i] = (uint8_t)number(digits + 2 * i, 2);
    }
    memcpy(changed, model.store, sizeof changed);
    put_field(changed, FORMER_LENGTH, get_field(model.store, TAG_LENGTH));
    put_field(changed, TAG_LENGTH, (unsigned)n);
    plan_range(TAG_WRITE, 28, model.store + 12, 16);
    plan_range(TAG_WRITE, 12, tag, 16);
    plan_fields(TAG_WRITE, changed, TAG_LENGTH, FORMER_LENGTH);
    CHECK(due.plan.count == TAG_STORES, "a tag write of %zu stores planned", due.plan.count);
}

static int is_time(long hour, long minute)
{
    return (hour >= 0 && hour <= 23 && minute >= 0 && minute <= 59) || (hour == 24 && minute == 60);
}

/* What is kept of an input, or -1. */
static long kept_input(long input)
{
    return input == 0 ? 0 : input == 1 ? 1 : input == 3 ? 2 : input == 17 ? 3 : -1;
}

/* All five bytes of the program, whether they change or not; its spare bits stay. */
static void expect_program(const uint8_t *digits)
{
    uint8_t changed[BOARD_STORE_SIZE];
    unsigned parts[PARTS];
    long n[16];

    for (int i = 0; i < 16; i++) {
        n[i] = number(digits + 2 * i, 2);
        if (n[i] < 0 || (i >= 8 && n[i] != 0))
            return;
    }
    if (n[0] >= PROGRAMS || !is_time(n[1], n[2]) || !is_time(n[3], n[4]) || kept_input(n[5]) < 0 || n[6] > 0x7F || n[7] > 7)
        return;
    for (int part = 0; part < PARTS; part++)
        parts[part] = (unsigned)(part == 4 ? kept_input(n[5]) : n[1 + part]);
    memcpy(changed, model.store, sizeof changed);
    put_program(changed, (unsigned)n[0], parts);
    plan_range(PROGRAM_WRITE, program_place((unsigned)n[0]), changed + program_place((unsigned)n[0]), PROGRAM_SIZE);
}

/* The one byte with FL bit 2. */
static void expect_enable(const uint8_t *digits)
{
    long program = number(digits, 2), enable = number(digits + 2, 2);
    uint8_t changed[BOARD_STORE_SIZE];
    unsigned bit;

    if (program < 0 || program >= PROGRAMS || enable < 0 || enable > 1)
        return;
    bit = 8 * program_place((unsigned)program) + ENABLE_BIT;
    memcpy(changed, model.store, sizeof changed);
    put_bits(changed, bit, 1, (unsigned)enable);
    plan(ENABLE_WRITE, bit / 8, changed[bit / 8]);
}

/* A good packet. What is none of these stores nothing: reads, values that are not accepted, what gets NULL. */
static void expect_packet(const uint8_t *packet, size_t size)
{
    const uint8_t *text = packet + 8;
    size_t n = size - 11;

    expect(packet[2] == '*' ? BOARD_SILENT : BOARD_REPLY, 0);
    if (packet[4] == 'E' && n == 8)
        expect_set(text);
    if (packet[4] != 'A')
        return;
    if (n == 10 && memcmp(text, "C203D6", 6) == 0)
        expect_power(text + 6);
    if (n == 18 && memcmp(text, "C212", 4) == 0)
        expect_date(text + 4);
    if (n >= 4 && n <= 36 && n % 2 == 0 && memcmp(text, "F011", 4) == 0)
        expect_tag(text + 4, (n - 4) / 2);
    if (n == 36 && memcmp(text, "C222", 4) == 0)
        expect_program(text + 4);
    if (n == 8 && memcmp(text, "C215", 4) == 0)
        expect_enable(text + 4);
}

/* L, or 0 where it is bad. */
static size_t message_length(const uint8_t *header)
{
    long length = number(header + 5, 2);

    return length < 4 || length > 64 ? 0 : (size_t)length;
}

static int header_refusal(const uint8_t *header)
{
    if (header[1] != '0' || header[3] != '0')
        return BOARD_REFUSED_HEADER;
    if (header[4] != 'A' && header[4] != 'C' && header[4] != 'E')
        return BOARD_REFUSED_MESSAGE_TYPE;
    return message_length(header) == 0 ? BOARD_REFUSED_LENGTH : 0;
}

static int own_address(void)
{
    return 0x40 + model.id;
}

static int packet_refusal(const uint8_t *packet, size_t size)
{
    if (packet[size - 1] != 0x0D)
        return BOARD_REFUSED_NO_RETURN;
    if (packet[size - 2] != check_code(packet, size))
        return BOARD_REFUSED_CHECK_CODE;
    if (packet[7] != 0x02 || packet[size - 3] != 0x03)
        return BOARD_REFUSED_MESSAGE;
    return packet[2] == own_address() || packet[2] == '*' ? 0 : BOARD_REFUSED_DESTINATION;
}

/* A byte that is held: waiting, a refusal or a whole packet. */
static void expect_held(uint8_t b)
{
    size_t n = model.len + 1;
    int is_whole, refusal;

    model.held[model.len] = b;
    is_whole = n > 7 && n == message_length(model.held) + 9;
    refusal = n == 7 ? header_refusal(model.held) : is_whole ? packet_refusal(model.held, n) : 0;
    model.len = refusal != 0 || is_whole ? 0 : n;
    if (refusal != 0)
        expect_refusal(refusal);
    else if (is_whole)
        expect_packet(model.held, n);
    else
        expect(BOARD_WAITING, 0);
}

static void expect_byte(uint8_t b, size_t room)
{
    if (room < BOARD_REPLY_ROOM)
        expect_refusal(BOARD_REFUSED_SHORT_BUFFER);
    else if (model.is_pending)
        expect_refusal(BOARD_REFUSED_ERASE_PENDING);
    else if (model.len == 0 && b != 0x01)
        expect_refusal(BOARD_REFUSED_NO_START);
    else
        expect_held(b);
}

static void expect_gap(void)
{
    if (model.is_pending) {
        expect_refusal(BOARD_REFUSED_ERASE_PENDING);
        return;
    }
    model.len = 0;
    expect(BOARD_WAITING, 0);
}

/* A step that runs. */
static void expect_erasing(void)
{
    if (model.place < BOARD_STORE_SIZE) {
        expect(BOARD_MORE, 0);
        plan(CLEARING, model.place, unused[model.place]);
        model.place++;
        return;
    }
    expect(model.is_owed ? BOARD_REPLY : BOARD_ENDED, 0);
    plan(LAST_STEP, 0, MARK);
    model.is_pending = 0;
}

static void expect_step(size_t room)
{
    if (room < BOARD_REPLY_ROOM)
        expect_refusal(BOARD_REFUSED_SHORT_BUFFER);
    else if (!model.is_pending)
        expect_refusal(BOARD_REFUSED_NO_ERASE_PENDING);
    else
        expect_erasing();
}

/*
 * A start on what the store holds. Its result 0 is told as waiting here. A store without programs gets unused ones, and its mark
 * behind them.
 */
static void expect_start(void)
{
    expect(BOARD_WAITING, 0);
    if (model.store[0] == OLD_MARK) {
        plan_range(CONVERSION, PROGRAMS_AT, unused + PROGRAMS_AT, PROGRAMS * PROGRAM_SIZE);
        plan(CONVERSION, 0, MARK);
        CHECK(due.plan.count == CONVERSION_STORES, "a conversion of %zu stores planned", due.plan.count);
    }
    model.len = 0;
    model.is_pending = model.store[0] == ERASE_MARK;
    model.is_owed = 0;
    model.place = 1;
}

/* Watched calls */

struct board {
    uint8_t state[BOARD_STATE_SIZE], *store;
    size_t state_len, store_len;
    int answer; /* of the last call, as the next three */
    uint8_t refusal;
    size_t size;
    uint8_t reply[BOARD_REPLY_ROOM];
};

static struct board board;

/* The identity beside the ID. A start that is to be refused is told of one byte more than a serial number may have. */
static const uint8_t serial[BOARD_TEXT_MAX + 1] = "SN-0042", product[] = {'M', '4', '2', '1'};

enum { SERIAL_LENGTH = 7 };

/* The memory of a board as arguments. */
#define OWN(b) (b).state, (b).state_len, (b).store, (b).store_len

/* Whether the i-th store of the call is as planned. */
static void check_store(int line, size_t i)
{
    static const struct entry none = {.place = -1};
    const struct entry *seen = &watch.seen.list[i], *planned = i < due.plan.count ? &due.plan.list[i] : &none;

    check(seen->place == planned->place && seen->width == planned->width && seen->value == planned->value, line,
          "store %zu of %zu: place %ld, width %ld, value %02X instead of place %ld, width %ld, value %02X", i + 1, due.plan.count,
          seen->place, seen->width, seen->value, planned->place, planned->width, planned->value);
}

/* What the call has stored so far is the beginning of its plan, and the store is the old one with that applied. */
static void check_stores(int line)
{
    for (size_t i = 0; i < watch.seen.count && i < ENTRIES; i++)
        check_store(line, i);
    apply(&watch.seen, model.store);
    check(memcmp(watch.store, model.store, BOARD_STORE_SIZE) == 0, line, "another store than the old one with what was stored");
}

static void begin_call(void)
{
    watch.seen.count = 0;
    board.refusal = 0;
    board.size = 0;
    calls++;
}

static void end_call(int line, int answer)
{
    board.answer = answer;
    check(answer == due.answer && board.refusal == due.refusal, line, "answer %d, refusal %d instead of answer %d, refusal %d",
          answer, board.refusal, due.answer, due.refusal);
    if (!watch.is_on)
        watch.seen = due.plan; /* then only what the store holds is compared */
    check(watch.seen.count == due.plan.count, line, "%zu stores instead of %zu", watch.seen.count, due.plan.count);
    check(watch.seen.count <= MOST_STORES, line, "%zu stores in one call", watch.seen.count);
    check_stores(line);
}

/* The calls by themselves, for boards that are as document 01 wants them or not. */

static void make_byte(int line, uint8_t b, size_t room)
{
    begin_call();
    end_call(line, board_byte(OWN(board), b, board.reply, room, &board.size, &board.refusal));
}

static void make_gap(int line)
{
    begin_call();
    end_call(line, board_gap(OWN(board), &board.refusal));
}

static void make_step(int line, size_t room)
{
    begin_call();
    end_call(line, board_step(OWN(board), board.reply, room, &board.size, &board.refusal));
}

/* A start answers with a refusal's number or with 0. */
static void make_start(int line, int id, size_t serial_len)
{
    int result;

    begin_call();
    result = board_start((uint8_t)id, serial, serial_len, product, sizeof product, board.store, board.store_len, board.state,
                         board.state_len);
    board.refusal = (uint8_t)result;
    end_call(line, result == 0 ? BOARD_WAITING : BOARD_REFUSED);
}

/* The calls with what is due of them */

static void byte_into(int line, uint8_t b, size_t room)
{
    expect_byte(b, room);
    make_byte(line, b, room);
}

static void gap_at(int line)
{
    expect_gap();
    make_gap(line);
}

static void step_into(int line, size_t room)
{
    expect_step(room);
    make_step(line, room);
}

#define BYTE(b) byte_into(__LINE__, (b), BOARD_REPLY_ROOM)
#define GAP() gap_at(__LINE__)
#define STEP() step_into(__LINE__, BOARD_REPLY_ROOM)

/* A power cut, which leaves nothing of the state, and the start after it. */
static void start_again(int line)
{
    random_bytes(board.state, sizeof board.state);
    expect_start();
    make_start(line, model.id, SERIAL_LENGTH);
}

#define START_AGAIN() start_again(__LINE__)

/*
 * The store of a board in use and on: random fields and programs within their ranges, anything in tags, spare bits and spare bytes,
 * and with mark 00h anything in place of the programs.
 */
static void put_used(uint8_t mark)
{
    random_bytes(model.store, sizeof model.store);
    model.store[0] = mark;
    for (int field = 0; field < FIELDS; field++)
        put_field(model.store, field, random_value(field));
    put_field(model.store, POWER, 1);
    for (unsigned program = 0; mark == MARK && program < PROGRAMS; program++)
        put_random_program(model.store, program);
    put_store(model.store);
}

static void start_used(int id)
{
    model.id = id;
    put_used(MARK);
    START_AGAIN();
}

static void give(struct packet p)
{
    for (size_t i = 0; i < p.size; i++)
        BYTE(p.bytes[i]);
}

static struct request erase_request(void)
{
    return request_of('E', "F0010001");
}

/* The watch itself */

/* Five widths, storing what is there; then what does more than store: arithmetic, an exchange, a string of two bytes. */
static void run_instructions(uint8_t *at)
{
    uint64_t value = 0, count = 2;
    uint8_t *to = at;

    __asm__ volatile("movb %b1, (%0)\n\tmovw %w1, 1(%0)\n\tmovl %k1, 3(%0)\n\tmovq %1, 7(%0)" : : "r"(at), "r"(value) : "memory");
    __asm__ volatile("pxor %%xmm0, %%xmm0\n\tmovups %%xmm0, 15(%0)" : : "r"(at) : "xmm0", "memory");
    __asm__ volatile("orl $0x100, 31(%0)" : : "r"(at) : "cc", "memory");
    value = 0x41;
    __asm__ volatile("xchgb %b0, 35(%1)" : "+q"(value) : "r"(at) : "memory");
    __asm__ volatile("rep stosb" : "+D"(to), "+c"(count) : "a"(0x42) : "memory");
}

static void test_watch(void)
{
    static const struct entry planned[] = {{80, 1, 0x00},  {81, 2, 0x00},  {83, 4, 0x00}, {87, 8, 0x00}, {95, 16, 0x00},
                                           {112, 0, 0x01}, {115, 0, 0x41}, {80, 0, 0x42}, {81, 0, 0x42}};

    memcpy(model.store, unused, sizeof model.store);
    put_store(model.store);
    begin_call();
    run_instructions(watch.store + 80); /* where an unused store has zeros */
    due.plan.count = 0;
    for (size_t i = 0; i < COUNT(planned); i++)
        add(&due.plan, planned[i]);
    CHECK(watch.seen.count == due.plan.count, "%zu stores instead of %zu", watch.seen.count, due.plan.count);
    check_stores(__LINE__);
}

/* Calls at random */

static struct request random_get(void)
{
    unsigned pair = one_in(4) ? below(0x10000) : one_in(8) ? 0xF001 : settings[below(COUNT(settings))].pair;

    return request_of('C', "%04X", pair);
}

/* Some values are just outside the range, some far away. */
static struct request random_set(void)
{
    const struct setting *setting = &settings[below(COUNT(settings))];
    unsigned pair = one_in(16) ? below(0x10000) : setting->pair;

    return request_of('E', one_in(4) ? "%04x%04x" : "%04X%04X", pair, below(one_in(8) ? 0x10000 : setting->largest + 3));
}

static struct request random_power(void)
{
    return request_of('A', "C203D6%04X", one_in(4) ? below(one_in(2) ? 6 : 0x10000) : one_in(3) ? 4 : 1);
}

/* Mostly with the weekday that falls on the day. */
static struct request random_date(void)
{
    unsigned d[7] = {0};

    for (int i = 0; i < 6; i++)
        d[i] = one_in(24) ? below(256) : random_value(YEAR + i);
    if (!one_in(8))
        d[3] = weekday_of(d[0], d[1], d[2]);
    if (one_in(24))
        d[6] = below(3);
    return request_of('A', "C212%02X%02X%02X%02X%02X%02X%02X", d[0], d[1], d[2], d[3], d[4], d[5], d[6]);
}

/* Some tags are too long, and some have an odd number of digits. */
static struct request random_tag(void)
{
    struct request request = request_of('A', "F011");
    size_t digits = 2 * below(one_in(8) ? 30 : 17);

    if (digits > 0 && one_in(16))
        digits--;
    for (size_t i = 0; i < digits; i++)
        request.text[4 + i] = "0123456789ABCDEFabcdef"[below(22)];
    return request;
}

/* Most programs are good; in some, one number is outside, at the edges more often than elsewhere. */
static struct request random_program(void)
{
    static const unsigned inputs[] = {0, 1, 3, 17}, wrong[] = {1, 2, 4, 7, 8, 24, 25, 59, 60, 61, 128, 255};
    unsigned n[16] = {below(PROGRAMS), 0, 0, 0, 0, inputs[below(COUNT(inputs))], below(128), below(8)};
    struct request request = request_of('A', "C222");

    random_time(n + 1);
    random_time(n + 3);
    if (one_in(4))
        n[below(COUNT(n))] = wrong[below(COUNT(wrong))];
    for (size_t i = 0; i < COUNT(n); i++)
        snprintf(request.text + 4 + 2 * i, 3, "%02X", n[i]);
    return request;
}

static struct request random_enable(void)
{
    return request_of('A', "C215%02X%02X", below(one_in(8) ? 256 : PROGRAMS), below(one_in(8) ? 256 : 2));
}

static struct request random_program_read(void)
{
    return request_of('A', "C221%02X", below(one_in(8) ? 256 : PROGRAMS + 1));
}

static struct request random_read(void)
{
    static const char *const texts[] = {"01D6", "C211", "C216", "C217", "F010", "F012"};

    return request_of('A', "%s", texts[below(COUNT(texts))]);
}

static struct request random_null(void)
{
    struct request request = {.type = "ACE"[below(3)]};
    size_t n = 2 + below(61);

    for (size_t i = 0; i < n; i++)
        request.text[i] = (char)(one_in(2) ? "0123456789ABCDEF"[below(16)] : ' ' + (int)below(95));
    return request;
}

/* The erase is rare, for its steps are many; most of these are values that it does not take. */
static struct request random_erase(void)
{
    return one_in(6) ? erase_request() : request_of('E', "F001%04X", 2 + below(one_in(2) ? 4 : 0xFFFE));
}

static struct request random_request(void)
{
    static struct request (*const kinds[])(void) = {
        random_get,   random_set,   random_set,     random_set,     random_set,    random_set,         random_set,
        random_power, random_date,  random_date,    random_tag,     random_read,   random_power,       random_read,
        random_null,  random_erase, random_program, random_program, random_enable, random_program_read};

    return kinds[below(COUNT(kinds))]();
}

static void random_change(struct packet *p)
{
    p->bytes[below(p->size)] ^= (uint8_t)(1 + below(255));
}

/* Changes a byte, or one in front of the right check code; or drops bytes at the end. */
static void damage(struct packet *p)
{
    switch (below(3)) {
    case 0:
        random_change(p);
        break;
    case 1:
        random_change(p);
        p->bytes[p->size - 2] = check_code(p->bytes, p->size);
        break;
    case 2:
        p->size -= 1 + below(5);
        break;
    }
}

/* Most packets are good ones for this board or for all; some are for another, some damaged, and some are no packets at all. */
static struct packet random_packet(void)
{
    int destination = one_in(3) ? '*' : one_in(10) ? 'A' + (int)below(8) : own_address();
    struct packet p = packet_of(destination, random_request());

    if (one_in(10))
        damage(&p);
    if (one_in(20)) {
        p.size = 1 + below(30);
        random_bytes(p.bytes, p.size);
        if (one_in(2))
            p.bytes[0] = 0x01;
    }
    return p;
}

/* A state, a store or a field that is not sound; the store is changed under the board. */
static void make_unsound(void)
{
    switch (below(6)) {
    case 0:
        board.state_len = below(BOARD_STATE_SIZE);
        break;
    case 1:
        board.store_len = below(BOARD_STORE_SIZE);
        break;
    case 2:
        memset(board.state, one_in(2) ? 0x00 : 0xFF, sizeof board.state);
        break;
    case 3:
        model.store[0] = (const uint8_t[]){OLD_MARK, model.is_pending ? MARK : ERASE_MARK, 0x55}[below(3)];
        break;
    default:
        if (!model.is_pending && one_in(2))
            put_bits(model.store, 8 * program_place(below(PROGRAMS)), 5, 25 + below(7));
        else if (!model.is_pending)
            put_field(model.store, settings[below(COUNT(settings))].field, 0x7F);
        else if (model.place > 1)
            model.store[1 + below(model.place - 1)] ^= 0x10;
        else
            model.store[0] = 0x02;
        break;
    }
    put_store(model.store);
}

/* One call with something unsound; then all is as before. */
static void call_unsound(void)
{
    const struct board kept_board = board;
    uint8_t kept_store[BOARD_STORE_SIZE];
    size_t room = one_in(4) ? below(BOARD_REPLY_ROOM) : BOARD_REPLY_ROOM;

    memcpy(kept_store, model.store, sizeof kept_store);
    make_unsound();
    expect_refusal(room < BOARD_REPLY_ROOM ? BOARD_REFUSED_SHORT_BUFFER : BOARD_REFUSED_UNSOUND);
    switch (below(3)) {
    case 0:
        make_byte(__LINE__, (uint8_t)(one_in(2) ? 0x01 : below(256)), room);
        break;
    case 1:
        make_step(__LINE__, room);
        break;
    case 2:
        expect_refusal(BOARD_REFUSED_UNSOUND);
        make_gap(__LINE__);
        break;
    }
    memcpy(model.store, kept_store, sizeof kept_store);
    put_store(model.store);
    board = kept_board;
}

enum fault { SHORT_STORE, OTHER_MARK, OTHER_ID, LONG_SERIAL, SHORT_STATE, BACKLIGHT_127, HOUR_25, FAULTS };

/* What is wrong with the store, where it is that. With mark 00h nothing is stored in it either. */
static void put_fault(enum fault fault)
{
    if (one_in(2) && fault != HOUR_25)
        put_used(OLD_MARK);
    if (fault == OTHER_MARK)
        model.store[0] = 0x5A;
    if (fault == BACKLIGHT_127) {
        model.store[0] = one_in(2) ? OLD_MARK : MARK;
        model.store[1] |= 0xFE;
    }
    if (fault == HOUR_25) {
        put_used(MARK);
        put_bits(model.store, 8 * program_place(below(PROGRAMS)), 5, 25);
    }
    put_store(model.store);
}

/* A start that is refused for its store, its identity or its state; the board goes on as it was. */
static void call_refused_start(void)
{
    enum fault fault = (enum fault)below(FAULTS);
    uint8_t kept_store[BOARD_STORE_SIZE];

    memcpy(kept_store, model.store, sizeof kept_store);
    put_fault(fault);
    expect_refusal(fault <= OTHER_MARK ? BOARD_REFUSED_NOT_A_STORE : BOARD_REFUSED_UNSOUND);
    board.store_len -= fault == SHORT_STORE;
    board.state_len -= fault == SHORT_STATE;
    make_start(__LINE__, fault == OTHER_ID ? (one_in(2) ? 0 : 9) : model.id,
               fault == LONG_SERIAL ? BOARD_TEXT_MAX + 1 : SERIAL_LENGTH);
    board.store_len = BOARD_STORE_SIZE;
    board.state_len = BOARD_STATE_SIZE;
    memcpy(model.store, kept_store, sizeof kept_store);
    put_store(model.store);
}

/* A call between two others, at any moment. */
static void disturb(void)
{
    size_t room = below(BOARD_REPLY_ROOM);

    switch (below(8)) {
    case 0:
        GAP();
        break;
    case 1:
        step_into(__LINE__, room);
        break;
    case 2:
        STEP();
        break;
    case 3:
        START_AGAIN();
        break;
    case 4:
        call_refused_start();
        break;
    case 5:
        byte_into(__LINE__, (uint8_t)below(256), room);
        break;
    default:
        call_unsound();
        break;
    }
}

/* Steps until no erase is pending, with other calls between them; a cut is rare, for the steps then begin anew. */
static void run_pending(void)
{
    while (model.is_pending) {
        if (one_in(300))
            START_AGAIN();
        else if (one_in(100))
            call_refused_start();
        else if (one_in(20))
            call_unsound();
        else if (one_in(10))
            GAP();
        else if (one_in(10))
            BYTE((uint8_t)(one_in(2) ? 0x01 : below(256)));
        else
            step_into(__LINE__, one_in(10) ? below(BOARD_REPLY_ROOM) : BOARD_REPLY_ROOM);
    }
}

static void give_random(void)
{
    const struct packet p = random_packet();

    for (size_t i = 0; i < p.size; i++) {
        if (one_in(100))
            disturb();
        BYTE(p.bytes[i]);
    }
    if (one_in(4))
        GAP();
}

enum { PACKETS = 12000, FEWEST_TRIED = 50 };

static void test_random_calls(void)
{
    memset(tried, 0, sizeof tried);
    for (int i = 0; i < PACKETS; i++) {
        if (i % 400 == 0)
            start_used(1 + (int)below(8));
        if (i % 100 == 50) {
            put_used(OLD_MARK);
            START_AGAIN();
        }
        give_random();
        run_pending();
    }
    for (int kind = 0; kind < KINDS; kind++)
        CHECK(tried[kind] >= FEWEST_TRIED, "of kind %d only %lu calls", kind, tried[kind]);
}

/* Calls that are left at a store */

static struct packet packet_left;

static void give_packet(void)
{
    give(packet_left);
}

static void start_now(void)
{
    START_AGAIN();
}

static void run_steps(void)
{
    while (model.is_pending)
        STEP();
}

static void run_erase(void)
{
    give_packet();
    run_steps();
}

/* A board with settings, a tag and a former tag of its own, which gets a request next. */
static void start_tagged(int to_all, struct request request)
{
    set_watch(0);
    start_used(1 + (int)below(8));
    give(packet_of(own_address(), request_of('E', "0010002A")));
    give(packet_of('*', request_of('E', "00600004")));
    give(packet_of(own_address(), request_of('A', "F0115448495320544147")));
    give(packet_of(own_address(), request_of('A', "F011414E4F5448455220544147")));
    set_watch(1);
    packet_left = packet_of(to_all ? '*' : own_address(), request);
}

/* Leaves a call at the k-th store from here on. */
static void leave_at(int line, size_t k, void (*run)(void))
{
    check(is_left_at(k, run), line, "fewer than %zu stores", k);
    check(watch.seen.count < due.plan.count, line, "left at store %zu of %zu", watch.seen.count + 1, due.plan.count);
    check_stores(line);
}

#define LEAVE_AT(k, run) leave_at(__LINE__, (k), (run))

/* A board that was never used, with a store that is not watched. */
static struct board fresh;

static void start_fresh(void)
{
    static uint8_t store[BOARD_STORE_SIZE];

    fresh.store = store;
    fresh.state_len = BOARD_STATE_SIZE;
    fresh.store_len = BOARD_STORE_SIZE;
    CHECK(board_unused(store, sizeof store) == 0 && memcmp(store, unused, sizeof store) == 0, "another unused store");
    CHECK(board_start((uint8_t)model.id, serial, SERIAL_LENGTH, product, sizeof product, store, sizeof store, fresh.state,
                      sizeof fresh.state) == 0,
          "start refused");
}

/* Gives both boards a packet; they answer alike and store alike. */
static void give_both(struct packet p)
{
    for (size_t i = 0; i < p.size; i++) {
        fresh.refusal = 0;
        fresh.size = 0;
        fresh.answer = board_byte(OWN(fresh), p.bytes[i], fresh.reply, sizeof fresh.reply, &fresh.size, &fresh.refusal);
        BYTE(p.bytes[i]);
        CHECK(board.answer == fresh.answer && board.refusal == fresh.refusal && board.size == fresh.size &&
                  memcmp(board.reply, fresh.reply, board.size) == 0,
              "another answer than that of an unused board");
    }
    CHECK(memcmp(board.store, fresh.store, BOARD_STORE_SIZE) == 0, "another store than that of an unused board");
}

static const struct request replayed[] = {
    {'C', "0010"}, {'C', "0060"}, {'C', "F001"},     {'A', "01D6"},   {'A', "C211"},       {'A', "C216"},
    {'A', "F010"}, {'A', "F012"}, {'E', "00930011"}, {'A', "F01141"}, {'A', "C203D60004"}, {'C', "0093"},
    {'A', "F010"}, {'A', "F012"}, {'A', "C22100"},   {'A', "C22106"}, {'A', "C2150601"},   {'A', "C22106"},
};

/* The board is as one that was never used. */
static void replay(void)
{
    start_fresh();
    CHECK(memcmp(board.store, fresh.store, BOARD_STORE_SIZE) == 0, "another store than that of an unused board");
    for (size_t i = 0; i < COUNT(replayed); i++)
        give_both(packet_of(i % 5 == 4 ? '*' : own_address(), replayed[i]));
}

/* The 128 steps that a start on E7h leaves to be run. */
static void finish_erase(void)
{
    for (int step = 1; step <= BOARD_ERASE_STEPS; step++) {
        STEP();
        CHECK(board.answer == (step < BOARD_ERASE_STEPS ? BOARD_MORE : BOARD_ENDED), "step %d: answer %d", step, board.answer);
    }
}

/* An erase that is left at its k-th store, and where j is not 0 at the j-th one after the start as well. */
static void try_erase_left(int to_all, size_t k, size_t j)
{
    uint8_t stored[BOARD_STORE_SIZE];

    start_tagged(to_all, erase_request());
    memcpy(stored, model.store, sizeof stored);
    LEAVE_AT(k, run_erase);
    if (k > 1) {
        stored[0] = ERASE_MARK;
        memcpy(stored + 1, unused + 1, k - 2);
    }
    CHECK(memcmp(board.store, stored, sizeof stored) == 0, "left at store %zu: another store", k);
    START_AGAIN();
    if (k == 1) {
        GAP(); /* no erase is pending */
        return;
    }
    if (j > 0) {
        LEAVE_AT(j, run_steps);
        START_AGAIN();
    }
    set_watch(0);
    finish_erase();
    replay();
    set_watch(1);
}

static int at_end; /* whether the store is at the end of its page or at the beginning */

/* Every store of an erase: E7h, 127 bytes, 01h; to the board and to all, left once and twice. */
static void test_erases_left(void)
{
    for (size_t k = 1; k <= 1 + BOARD_ERASE_STEPS; k++) {
        try_erase_left(at_end, k, 0);
        try_erase_left(!at_end, k, 1 + below(BOARD_ERASE_STEPS));
    }
}

static struct request tag_request(size_t n)
{
    return request_of('A', "F011%.*s", (int)(2 * n), "A1B2C3D4E5F60718293A4B5C6D7E8F90");
}

/* A write of n stores. The supply holds up for all of them; where it would not, the first of the plan were made. */
static void try_write_left(struct request request, size_t n)
{
    for (size_t k = 1; k <= n; k++) {
        start_tagged(k % 2 == 0, request);
        LEAVE_AT(k, give_packet);
        CHECK(watch.seen.count == k - 1, "left at store %zu, and %zu were made", k, watch.seen.count);
    }
    start_tagged(0, request);
    CHECK(!is_left_at(n + 1, give_packet) && watch.seen.count == n, "%zu stores instead of %zu", watch.seen.count, n);
}

static void test_writes_left(void)
{
    try_write_left(tag_request(0), TAG_STORES);
    try_write_left(tag_request(7), TAG_STORES);
    try_write_left(tag_request(16), TAG_STORES);
    try_write_left(request_of('A', "C2121A0B10010C1E00"), 5);                                /* a date, in bytes 6 to 10 */
    try_write_left(request_of('E', "02750021"), 2);                                          /* PIP V, in bytes 3 and 4 */
    try_write_left(request_of('A', "C203D60004"), 1);                                        /* power, in byte 6 */
    try_write_left(request_of('A', "C222000700171E111F060000000000000000"), PROGRAM_STORES); /* bytes 44 to 48 */
    try_write_left(request_of('A', "C22206183C183C0000000000000000000000"), PROGRAM_STORES); /* bytes 74 to 78 */
    try_write_left(request_of('A', "C2150501"), 1);                                          /* FL bit 2 of program 5, in byte 72 */
}

/*
 * A start on a store without programs, left at each of its stores. The supply holds up for all of them; where it would not, the
 * mark would still be the old one, and the next start would make all stores again.
 */
static void test_conversions_left(void)
{
    for (size_t k = 1; k <= CONVERSION_STORES; k++) {
        model.id = 1 + (int)below(8);
        put_used(OLD_MARK);
        LEAVE_AT(k, start_now);
        CHECK(watch.seen.count == k - 1 && model.store[0] == OLD_MARK, "left at store %zu, and %zu were made", k, watch.seen.count);
        START_AGAIN();
        CHECK(watch.seen.count == CONVERSION_STORES, "%zu stores behind a start that was left", watch.seen.count);
        START_AGAIN();
        CHECK(watch.seen.count == 0, "%zu stores of a start on mark 01h", watch.seen.count);
    }
}

#define RUN(test) (subject = #test, test())

static void test_all(void)
{
    board.store = watch.store = at_end ? watch.page + PAGE - BOARD_STORE_SIZE : watch.page;
    board.state_len = BOARD_STATE_SIZE;
    board.store_len = BOARD_STORE_SIZE;
    RUN(test_watch);
    RUN(test_random_calls);
    RUN(test_erases_left);
    RUN(test_writes_left);
    RUN(test_conversions_left);
}

int main(void)
{
    random_state = seed;
    subject = "board_stores";
    make_unused();
    begin_watch();
    for (at_end = 0; at_end <= 1; at_end++)
        test_all();
    if (failures > 0) {
        fprintf(stderr, "stores of the board: %lu calls, %lu stores seen; %lu of %lu checks failed, seed %llX\n", calls, stores,
                failures, checks, (unsigned long long)seed);
        return 1;
    }
    printf("stores of the board: %lu calls, %lu stores seen; %lu checks passed, seed %llX\n", calls, stores, checks,
           (unsigned long long)seed);
    return 0;
}
