/* JSON members on standard output. */
#include "json.h"

#include "say.h"

#include <stdio.h>
#include <string.h>

void print_json_bytes(const uint8_t *bytes, size_t count)
{
    putchar('"');
    for (size_t i = 0; i < count; i++) {
        if (bytes[i] == '"' || bytes[i] == '\\')
            printf("\\%c", bytes[i]);
        else if (bytes[i] < 0x20 || bytes[i] > 0x7E)
            printf("\\u%04X", bytes[i]);
        else
            putchar(bytes[i]);
    }
    putchar('"');
}

void print_json_text(const char *key, const char *text)
{
    printf(",\"%s\":", key);
    print_json_bytes((const uint8_t *)text, strlen(text));
}

void print_json_hex(const char *key, const uint8_t *bytes, size_t count)
{
    printf(",\"%s\":\"", key);
    for (size_t i = 0; i < count; i++)
        printf("%02X", bytes[i]);
    putchar('"');
}

void print_json_error(void)
{
    const struct error *error = say_last_error();

    print_json_text("error", error->what.chars);
    print_json_text("left", error->left.chars);
    print_json_text("todo", error->todo.chars);
}
