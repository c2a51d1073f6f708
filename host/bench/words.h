/* The numbers of replies in words, and the words of commands as numbers. */
#ifndef WORDS_H
#define WORDS_H

#include "reply.h"
#include "say.h"

/* A setting of document 01's table. */
struct setting {
    const char *name;
    uint8_t page, code;
    const char *takes; /* the values that it takes, in words */
};

#define SETTINGS 8
extern const struct setting settings[SETTINGS];

/* The setting with this name, or with this pair; a null pointer where there is none. */
const struct setting *setting_named(const char *name);
const struct setting *setting_at(unsigned page, unsigned code);

/* Adds a setting's name, or its page and code where it has none. */
void add_setting(struct text *text, unsigned page, unsigned code);

/* What a setting's value means beyond its number; a null pointer where that is nothing. */
const char *value_words(unsigned page, unsigned code, unsigned value);

/* The names of kinds of replies: in words, and as one word for programs. */
const char *kind_words(uint8_t kind);
const char *kind_word(uint8_t kind);

/* A power mode in words. */
const char *mode_words(unsigned mode);

/* A weekday, Sunday 0, in words. */
const char *weekday_words(unsigned weekday);

/* Adds a date, seven numbers in the packet's order. */
void add_date(struct text *text, const uint16_t *date);

#endif
