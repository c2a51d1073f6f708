/* Monotonic time, and waits with a deadline. */
#define _POSIX_C_SOURCE 200809L

#include "deadline.h"

#include <poll.h>
#include <time.h>

long long now_ms(void)
{
    struct timespec time = {0};

    clock_gettime(CLOCK_MONOTONIC, &time);
    return (long long)time.tv_sec * 1000 + time.tv_nsec / 1000000;
}

bool wait_ready(int fd, short events, long long until)
{
    struct pollfd wait = {.fd = fd, .events = events};

    for (;;) {
        long long left = until - now_ms();
        int ready = poll(&wait, 1, left > 0 ? (int)left : 0);

        if (ready > 0)
            return true;
        if (left <= 0)
            return false;
    }
}
