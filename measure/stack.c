/*
 * Prints how deep the stack went under calls of the linked board, in bytes: they run on a thread whose stack was filled with a
 * pattern, and what is left of the pattern tells. Behind that, in hexadecimal, a bit for each answer and each refusal that came up;
 * bit 0 of the refusals is a start that went well.
 *
 * The calls are starts, the recording on standard input, refusals and whole erases. All stand at the same depth, so that the depth
 * with board_none.c can be subtracted: everything around them is inlined into one function, and the option
 * -maccumulate-outgoing-args keeps their arguments in its frame.
 */
#define _DEFAULT_SOURCE /* MAP_ANONYMOUS */

#include "../host/board.h"

#include <pthread.h>
#include <stdio.h>
#include <string.h>
#include <sys/mman.h>

#define INLINED static inline __attribute__((always_inline))

enum { STACK = 256 * 1024, PATTERN = 0xA5, LONGEST = 10000000 };

static uint8_t recording[LONGEST];
static size_t recorded;

static uint8_t *stack;
static size_t depth;

static _Alignas(16) uint8_t state[STATE_SIZE]; /* each board has its own size; measure/board gives it to the compiler */
static uint8_t store[BOARD_STORE_SIZE], reply[BOARD_REPLY_ROOM];
static unsigned answers, refusals;

/* One call */

INLINED void note(uint8_t answer, uint8_t refusal)
{
    answers |= 1u << answer;
    if (answer == BOARD_REFUSED)
        refusals |= 1u << refusal;
}

INLINED void start(uint8_t id)
{
    static const uint8_t text[BOARD_TEXT_MAX] = "SIXTEEN BYTES...";

    refusals |= 1u << board_start(id, text, sizeof text, text, sizeof text, store, sizeof store, state, sizeof state);
}

INLINED void byte(uint8_t b, size_t room)
{
    size_t size;
    uint8_t refusal = 0, answer = board_byte(state, sizeof state, store, sizeof store, b, reply, room, &size, &refusal);

    note(answer, refusal);
}

INLINED void gap(void)
{
    uint8_t refusal = 0, answer = board_gap(state, sizeof state, store, sizeof store, &refusal);

    note(answer, refusal);
}

INLINED void step(void)
{
    size_t size;
    uint8_t refusal = 0, answer = board_step(state, sizeof state, store, sizeof store, reply, sizeof reply, &size, &refusal);

    note(answer, refusal);
}

/* Many calls */

INLINED void play(const uint8_t *bytes, size_t n)
{
    for (size_t i = 0; i < n; i++)
        byte(bytes[i], sizeof reply);
}

/* Refusals that no byte from the line brings about. */
INLINED void refuse(void)
{
    uint8_t kept = store[1];

    byte(0x01, sizeof reply - 1);
    step();
    start(9);
    store[1] = 0xFF;
    start(1);
    byte(0x01, sizeof reply);
    gap();
    store[1] = kept;
    store[0] = 0x02;
    start(1);
    store[0] = 0x01;
}

/* An erase to its end; where there is a cut, the board starts again halfway. */
INLINED void erase(int is_cut)
{
    static const uint8_t packet[] = "\0010A0E0A\002F0010001\003\002\r";

    play(packet, sizeof packet - 1);
    for (int i = 0; i < BOARD_ERASE_STEPS / 2; i++)
        step();
    byte(0x01, sizeof reply);
    gap();
    if (is_cut)
        start(1);
    for (int i = 0; i < BOARD_ERASE_STEPS; i++)
        step();
}

INLINED size_t depth_now(void)
{
    size_t untouched = 0;

    while (stack[untouched] == PATTERN)
        untouched++;
    return STACK - untouched;
}

static void *run(void *given)
{
    board_unused(store, sizeof store);
    store[0] = 0x00; /* without programs, so that the start converts it */
    start(1);
    play(recording, recorded);
    gap();
    refuse();
    erase(0);
    erase(1);
    depth = depth_now();
    return given;
}

/* The thread */

static int run_on_own_stack(void)
{
    pthread_attr_t attributes;
    pthread_t thread;

    stack = mmap(NULL, STACK, PROT_READ | PROT_WRITE, MAP_PRIVATE | MAP_ANONYMOUS, -1, 0);
    if (stack == MAP_FAILED)
        return 0;
    memset(stack, PATTERN, STACK);
    return pthread_attr_init(&attributes) == 0 && pthread_attr_setstack(&attributes, stack, STACK) == 0 &&
           pthread_create(&thread, &attributes, run, NULL) == 0 && pthread_join(thread, NULL) == 0;
}

int main(void)
{
    recorded = fread(recording, 1, sizeof recording, stdin);
    if (!run_on_own_stack()) {
        perror("stack");
        return 1;
    }
    printf("%zu %x %x\n", depth, answers, refusals);
    return 0;
}
