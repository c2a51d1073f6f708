/* What bench writes beside its results. */
#define _DEFAULT_SOURCE /* TIOCGWINSZ */

#include "say.h"

#include <stdarg.h>
#include <stdio.h>
#include <string.h>
#include <sys/ioctl.h>
#include <unistd.h>

static void add(struct text *text, const char *format, va_list values)
{
    size_t room = sizeof text->chars - text->len;
    int added = vsnprintf(text->chars + text->len, room, format, values);

    if (added > 0)
        text->len += (size_t)added < room ? (size_t)added : room - 1;
}

void text_add(struct text *text, const char *format, ...)
{
    va_list values;

    va_start(values, format);
    add(text, format, values);
    va_end(values);
}

void text_add_quoted(struct text *text, const uint8_t *bytes, size_t count)
{
    text_add(text, "'");
    for (size_t i = 0; i < count; i++) {
        if (bytes[i] < 0x20 || bytes[i] > 0x7E || bytes[i] == '\'' || bytes[i] == '\\')
            text_add(text, "\\x%02X", bytes[i]);
        else
            text_add(text, "%c", bytes[i]);
    }
    text_add(text, "'");
}

/* ---- a row of the terminal */

static int row; /* how many columns of a row are filled that has no end yet */

/* How many columns a line may fill without going on in the next row. */
static int columns(void)
{
    struct winsize size = {.ws_col = 0};

    return ioctl(STDERR_FILENO, TIOCGWINSZ, &size) == 0 && size.ws_col > 1 ? size.ws_col - 1 : 79;
}

void say_row(const char *line)
{
    int width = columns(), cut = strlen(line) < (size_t)width ? (int)strlen(line) : width;

    if (isatty(STDERR_FILENO) != 1) {
        fprintf(stderr, "%s\n", line);
        return;
    }
    fprintf(stderr, "\r%-*.*s", row > cut && row <= width ? row : cut, cut, line); /* spaces cover a longer line before */
    row = cut;
}

void say_end_row(void)
{
    if (row > 0)
        fputc('\n', stderr);
    row = 0;
}

/* ---- errors */

static struct error last;

/* Says an error and keeps it. */
static void say(const char *left, const char *todo, const char *more, const char *format, va_list values)
{
    last = (struct error){.what.len = 0};
    add(&last.what, format, values);
    text_add(&last.left, "%s", left);
    text_add(&last.todo, "%s%s", todo, more);
    say_end_row();
    fprintf(stderr, "bench: %s.\n  Left as it was: %s.\n  To do: %s.\n", last.what.chars, last.left.chars, last.todo.chars);
}

enum status say_error(enum status status, const char *left, const char *todo, const char *format, ...)
{
    va_list values;

    va_start(values, format);
    say(left, todo, "", format, values);
    va_end(values);
    return status;
}

enum status say_usage(const char *todo, const char *format, ...)
{
    va_list values;

    va_start(values, format);
    say("everything; nothing was sent", todo, "; or read bench --help", format, values);
    va_end(values);
    return STATUS_USAGE;
}

const struct error *say_last_error(void)
{
    return &last;
}

/* ---- notes and bytes */

void say_note(const char *format, ...)
{
    va_list values;

    say_end_row();
    fputs("bench: ", stderr);
    va_start(values, format);
    vfprintf(stderr, format, values);
    va_end(values);
    fputc('\n', stderr);
}

void say_bytes(const char *direction, const uint8_t *bytes, size_t count, const char *remark)
{
    say_end_row();
    fputs(direction, stderr);
    for (size_t i = 0; i < count; i++)
        fprintf(stderr, " %02X", bytes[i]);
    if (remark != NULL)
        fprintf(stderr, " (%s)", remark);
    fputc('\n', stderr);
}
