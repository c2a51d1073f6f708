/*
 * Plays the recording on standard input to the linked board and prints the nanoseconds of processor time that a byte took, and how
 * often each answer came.
 */
#define _POSIX_C_SOURCE 200809L /* clock_gettime */

#include "../host/board.h"

#include <stdio.h>
#include <stdlib.h>
#include <time.h>

enum { LONGEST = 10000000, ANSWERS = BOARD_REPLY + 1 };

static uint8_t recording[LONGEST];
static unsigned long counts[ANSWERS];

static _Alignas(16) uint8_t state[STATE_SIZE]; /* each board has its own size; measure/board gives it to the compiler */
static uint8_t store[BOARD_STORE_SIZE];

static void start(void)
{
    static const uint8_t text[BOARD_TEXT_MAX] = "SIXTEEN BYTES...";

    board_unused(store, sizeof store);
    if (board_start(1, text, sizeof text, text, sizeof text, store, sizeof store, state, sizeof state) != 0) {
        fputs("speed: the board does not start\n", stderr);
        exit(1);
    }
}

static void play(size_t n)
{
    uint8_t reply[BOARD_REPLY_ROOM], refusal;
    size_t size;

    for (size_t i = 0; i < n; i++)
        counts[board_byte(state, sizeof state, store, sizeof store, recording[i], reply, sizeof reply, &size, &refusal)]++;
}

static double processor_time(void)
{
    struct timespec time;

    clock_gettime(CLOCK_PROCESS_CPUTIME_ID, &time);
    return (double)time.tv_sec * 1e9 + (double)time.tv_nsec;
}

int main(void)
{
    size_t n = fread(recording, 1, sizeof recording, stdin);
    double begin;

    start();
    begin = processor_time();
    play(n);
    printf("%.1f", (processor_time() - begin) / (double)n);
    for (int i = 0; i < ANSWERS; i++)
        printf(" %lu", counts[i]);
    putchar('\n');
    return 0;
}
