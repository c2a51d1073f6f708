/* The programs of a board's weekly schedule: the words of a command as a program's numbers, and its numbers in words. */
#ifndef SCHEDULE_H
#define SCHEDULE_H

#include "request.h"
#include "say.h"

/* Takes the words behind `schedule`. Gives STATUS_DONE, or says what is wrong with them. */
enum status schedule_request(char **words, int count, struct request *request);

/* Adds what a program holds; its numbers stand in the packet's order. */
void add_program(struct text *text, const uint8_t *program);

/* Add the days of a WEEK, and what an FL says. */
void add_days(struct text *text, unsigned week);
void add_flags(struct text *text, unsigned flags);

/* What a program's input means beyond its number; a null pointer where that is nothing. */
const char *program_input_words(unsigned input);

#endif
