/* A simulated board inside this process, as one end of a line. */
#ifndef INSIDE_H
#define INSIDE_H

#include <stdbool.h>
#include <stddef.h>
#include <stdint.h>

struct inside;

/*
 * Starts a board with monitor ID 1 on the store file of this name, or for a null pointer on an unused store; a pending erase runs
 * to its end, and where the start converts the store, that is said. Where the file or its bytes are refused, says so and gives a
 * null pointer.
 */
struct inside *inside_open(const char *store_file);

/* Gives the board bytes; an erase that begins runs to its end. */
void inside_take(struct inside *inside, const uint8_t *bytes, size_t count);

/* Takes the next byte of the board's replies; says whether there is one. */
bool inside_give(struct inside *inside, uint8_t *b);

/* Tells the board of a gap. */
void inside_gap(struct inside *inside);

void inside_close(struct inside *inside);

#endif
