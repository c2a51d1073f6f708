/* A reply for people and for programs. */
#include "show.h"

#include "fields.h"
#include "json.h"
#include "request.h"
#include "schedule.h"
#include "words.h"

#include <stdio.h>

/* ---- for people */

static void add_value(struct text *text, const uint16_t *n)
{
    const char *words = value_words(n[2], n[3], n[6]);

    text_add(text, "%u", n[6]);
    if (words != NULL)
        text_add(text, " (%s)", words);
}

/* Adds a serial number, a model or a tag. */
static void add_item(struct text *text, const char *name, const struct reply *reply)
{
    if (reply->count == 0) {
        text_add(text, "%s is empty", name);
        return;
    }
    text_add(text, "%s is ", name);
    text_add_quoted(text, reply->bytes, reply->count);
}

/* What a write has done. */
static void add_change(struct text *text, const struct reply *reply)
{
    const uint16_t *n = reply->numbers;

    switch (reply->kind) {
    case STATION_REPLY_SET:
        add_setting(text, n[2], n[3]);
        text_add(text, " set to ");
        add_value(text, n);
        break;
    case STATION_REPLY_POWER_CONTROL:
        text_add(text, "power set to %s", mode_words(n[2]));
        break;
    case STATION_REPLY_DATE_WRITE:
        text_add(text, "date set to ");
        add_date(text, n + 2);
        break;
    case STATION_REPLY_SCHEDULE_WRITE:
        text_add(text, "program %u set to ", reply->bytes[PROGRAM_NUMBER]);
        add_program(text, reply->bytes);
        break;
    case STATION_REPLY_SCHEDULE_ENABLE:
        text_add(text, "program %u %s", n[2], n[3] != 0 ? "enabled" : "disabled");
        break;
    default:
        text_add(text, "tag set to ");
        text_add_quoted(text, reply->bytes, reply->count);
        text_add(text, "; the tag before it is now the former tag");
        break;
    }
}

void add_sentence(struct text *text, const struct reply *reply)
{
    const uint16_t *n = reply->numbers;

    switch (reply->kind) {
    case STATION_REPLY_GET:
        add_setting(text, n[2], n[3]);
        text_add(text, " is ");
        add_value(text, n);
        text_add(text, ", at most %u", n[5]);
        break;
    case STATION_REPLY_POWER_READ:
        text_add(text, "power is %s", mode_words(n[2]));
        break;
    case STATION_REPLY_DATE_READ:
        text_add(text, "date is ");
        add_date(text, n + 1);
        break;
    case STATION_REPLY_SERIAL:
        add_item(text, "serial number", reply);
        break;
    case STATION_REPLY_MODEL:
    case STATION_REPLY_TAG:
    case STATION_REPLY_FORMER_TAG:
        add_item(text, kind_words(reply->kind), reply);
        break;
    case STATION_REPLY_SCHEDULE_READ:
        text_add(text, "program %u: ", reply->bytes[PROGRAM_NUMBER]);
        add_program(text, reply->bytes);
        break;
    default:
        add_change(text, reply);
        break;
    }
}

static void print_reserved(const uint8_t *reserved)
{
    printf("%-10s", "reserved");
    for (size_t i = 0; i < RESERVED_NUMBERS; i++)
        printf(" %02X", reserved[i]);
    putchar('\n');
}

void show_list(const struct reply *reply)
{
    struct fields fields = fields_of(reply);
    struct text quoted = {.len = 0};

    printf("%-10s monitor %u\n", "sender", reply_sender(reply));
    printf("%-10s %s\n", "kind", kind_words(reply->kind));
    for (size_t i = 0; i < fields.count; i++) {
        const struct field *field = &fields.list[i];

        printf("%-10s %u (%0*Xh)", field->key, field->number, field->digits, field->number);
        if (field->words[0] != '\0')
            printf(": %s", field->words);
        putchar('\n');
    }
    if (fields.has_bytes) {
        text_add_quoted(&quoted, reply->bytes, reply->count);
        printf("%-10s %s, %zu bytes\n", "text", quoted.chars, reply->count);
    }
    if (fields.reserved != NULL)
        print_reserved(fields.reserved);
}

/* ---- for programs */

/* Prints the members of a good reply. */
static void print_json_reply(const struct reply *reply)
{
    struct fields fields = fields_of(reply);
    char key[32];

    printf("{\"monitor\":%u", reply_sender(reply));
    print_json_text("reply", kind_word(reply->kind));
    printf(",\"refused\":%s", reply_is_refusal(reply) ? "true" : "false");
    for (size_t i = 0; i < fields.count; i++) {
        const struct field *field = &fields.list[i];

        printf(",\"%s\":%u", field->key, field->number);
        snprintf(key, sizeof key, "%s_words", field->key);
        if (field->words[0] != '\0')
            print_json_text(key, field->words);
    }
    if (fields.has_bytes) {
        printf(",\"text\":");
        print_json_bytes(reply->bytes, reply->count);
        print_json_hex("hex", reply->bytes, reply->count);
    }
    if (fields.reserved != NULL)
        print_json_hex("reserved_hex", fields.reserved, RESERVED_NUMBERS);
}

void show_json(const struct reply *reply, const uint8_t *packet, size_t len, unsigned remarks)
{
    if (reply->kind >= STATION_REPLY_NULL) {
        print_json_reply(reply);
    } else {
        printf("{\"refusal\":%u", reply->kind);
        print_json_text("meaning", refusal_meaning(reply->kind));
        print_json_hex("hex", packet, len);
    }
    if ((remarks & REMARK_SIMULATED) != 0)
        printf(",\"simulated\":true");
    if ((remarks & REMARK_READ_BACK) != 0)
        printf(",\"read_back\":true,\"unused\":%s", (remarks & REMARK_UNUSED) != 0 ? "true" : "false");
    printf("}\n");
}

void show_error(enum status status)
{
    printf("{\"status\":%d", status);
    print_json_error();
    printf("}\n");
}
