/*
 * What bench writes beside its results: errors in three parts, notes, and the bytes on the line. All of it goes to standard error.
 */
#ifndef SAY_H
#define SAY_H

#include <stddef.h>
#include <stdint.h>

/* How bench ends. */
enum status {
    STATUS_DONE = 0,        /* of an erase: erased */
    STATUS_REFUSED = 1,     /* the board refused: result or status 01, or the NULL message */
    STATUS_USAGE = 2,       /* wrong usage; nothing was sent */
    STATUS_NO_REPLY = 3,    /* no reply, or a bad one */
    STATUS_NOT_ERASED = 4,  /* of an erase: not erased, or not known */
    STATUS_CONTRADICTED = 5 /* of an erase: the board replied to it, and shows what an unused board does not */
};

/* A text that grows and never past its room. */
struct text {
    char chars[4096];
    size_t len;
};

__attribute__((format(printf, 2, 3))) void text_add(struct text *text, const char *format, ...);

/* Adds bytes in single quotes; what is not printable ASCII, a quote or a backslash stands as \xNN. */
void text_add_quoted(struct text *text, const uint8_t *bytes, size_t count);

/* Says an error: what happened (a format with its values), what was left as it was, and what to do. Gives `status` back. */
__attribute__((format(printf, 4, 5))) enum status say_error(enum status status, const char *left, const char *todo,
                                                            const char *format, ...);

/* Says wrong usage: what is wrong, that nothing was sent, and what to type instead. Gives STATUS_USAGE. */
__attribute__((format(printf, 2, 3))) enum status say_usage(const char *todo, const char *format, ...);

/* An error in its three parts. */
struct error {
    struct text what, left, todo;
};

/* The error that was said last. */
const struct error *say_last_error(void);

/*
 * Shows a line that stands for something that goes on: on a terminal in place of the one before, cut where the row ends; else by
 * itself. The next thing that is said, or say_end_row, ends the row.
 */
void say_row(const char *line);
void say_end_row(void);

/* Says a line that is no error. */
__attribute__((format(printf, 1, 2))) void say_note(const char *format, ...);

/* Shows bytes with their direction, "->" to the board or "<-" from it, and a remark where there is one. */
void say_bytes(const char *direction, const uint8_t *bytes, size_t count, const char *remark);

#endif
