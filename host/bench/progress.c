/* How long a board has been waited for, second by second. */
#include "progress.h"

#include "deadline.h"

static void show_seconds(long seconds, void *about)
{
    const struct progress *progress = about;
    struct text text = {.len = 0};

    text_add(&text, "bench: %ld s, at most %g s: %s", seconds, (double)progress->limit_ms / 1000, progress->doing.chars);
    say_row(text.chars);
}

void progress_begin(struct progress *progress, struct line *line)
{
    line->each_second = show_seconds;
    line->about = progress;
    line->since = now_ms();
}

void progress_end(struct line *line)
{
    say_end_row();
    line->each_second = NULL;
}
