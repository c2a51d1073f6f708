/* How long a board has been waited for, second by second. */
#ifndef PROGRESS_H
#define PROGRESS_H

#include "line.h"
#include "say.h"

struct progress {
    struct text doing;  /* what the wait is for */
    long long limit_ms; /* at most so long */
};

/* Shows the seconds from now on while the line is listened to; `progress` is used until progress_end. */
void progress_begin(struct progress *progress, struct line *line);

/* Ends that. */
void progress_end(struct line *line);

#endif
