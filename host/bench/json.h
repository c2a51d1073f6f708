/* JSON members on standard output. */
#ifndef JSON_H
#define JSON_H

#include <stddef.h>
#include <stdint.h>

/* Prints bytes as a JSON string whose characters are U+0000 to U+00FF, one a byte. Only ASCII is printed. */
void print_json_bytes(const uint8_t *bytes, size_t count);

/* Print a comma and a member: a text, or bytes as hexadecimal digits. */
void print_json_text(const char *key, const char *text);
void print_json_hex(const char *key, const uint8_t *bytes, size_t count);

/* Prints the error that was said last as three members, a comma before each. */
void print_json_error(void);

#endif
