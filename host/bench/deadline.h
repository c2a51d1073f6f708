/* Monotonic time, and waits with a deadline. */
#ifndef DEADLINE_H
#define DEADLINE_H

#include <stdbool.h>

/* Milliseconds since some moment that stays the same while the program runs. */
long long now_ms(void);

/*
 * Waits until `fd` is ready for `events` (POLLIN or POLLOUT), at most until the moment `until`; says whether it is. An error or a
 * closed line counts as ready: the read or write that follows tells it.
 */
bool wait_ready(int fd, short events, long long until);

#endif
