/* A simulated board inside this process, as one end of a line. */
#include "inside.h"

#include "say.h"
#include "simulation/sim.h"
#include "simulation/store_file.h"

#include <stdlib.h>
#include <string.h>

enum { INSIDE_ID = 1 };

static const char serial[] = "SIM-0001", model[] = "SIMULATED";

struct inside {
    struct sim sim;
    uint8_t unused[SIM_STORE_SIZE];    /* the store, where there is no file */
    const char *name;                  /* the store file's; null where there is none */
    struct store_file file;            /* the file of that name */
    bool is_off;                       /* nothing more could be stored in it, and the board is silent since */
    uint8_t out[2 * BOARD_REPLY_ROOM]; /* replies that were not taken yet, from out_at to out_end */
    size_t out_at, out_end;
};

/* Writes what a call has stored; gives its answer, or a refusal where that can't be written. */
static uint8_t kept(struct inside *inside, uint8_t answer)
{
    enum store_file_status status = inside->name != NULL ? store_file_keep(&inside->file) : STORE_FILE_OPEN;

    if (status == STORE_FILE_OPEN)
        return answer;
    say_note("the store '%s' can't be used any more: %s; the simulated board is off", inside->name, store_file_text(status));
    inside->is_off = true;
    return BOARD_REFUSED;
}

/* What follows from an answer: a reply is kept for the line, and an erase runs to its end. */
static void follow(struct inside *inside, uint8_t answer)
{
    struct sim *sim = &inside->sim;

    answer = kept(inside, answer == BOARD_BEGUN ? BOARD_MORE : answer);
    while (answer == BOARD_MORE)
        answer = kept(inside, sim_step(sim));
    if (inside->out_at == inside->out_end)
        inside->out_at = inside->out_end = 0;
    if (answer == BOARD_REPLY && sim->reply_len <= sizeof inside->out - inside->out_end) {
        memcpy(inside->out + inside->out_end, sim->reply, sim->reply_len);
        inside->out_end += sim->reply_len;
    }
}

/* Says why there is no board. */
static struct inside *give_up(struct inside *inside, const char *store_file, const char *why)
{
    say_error(STATUS_NO_REPLY, "everything; there is no simulated board",
              "name another file: where there is none, an unused store is made", "the store '%s' can't be used: %s",
              store_file != NULL ? store_file : "in memory", why);
    inside_close(inside);
    return NULL;
}

struct inside *inside_open(const char *store_file)
{
    struct inside *inside = calloc(1, sizeof *inside);
    enum store_file_status status = STORE_FILE_OPEN;
    uint8_t refusal;

    if (inside == NULL) {
        say_error(STATUS_NO_REPLY, "everything", "end other programs and try again", "there is no memory left");
        return NULL;
    }
    board_unused(inside->unused, sizeof inside->unused);
    if (store_file != NULL)
        status = store_file_open(&inside->file, store_file);
    if (status != STORE_FILE_OPEN)
        return give_up(inside, store_file, store_file_text(status));
    inside->name = store_file;
    refusal = sim_start(&inside->sim, store_file != NULL ? inside->file.bytes : inside->unused, INSIDE_ID, (const uint8_t *)serial,
                        strlen(serial), (const uint8_t *)model, strlen(model));
    if (refusal != 0)
        return give_up(inside, store_file, sim_refusal_text(refusal));
    follow(inside, sim_is_erasing(&inside->sim) ? BOARD_BEGUN : BOARD_WAITING);
    if (inside->sim.is_converted && !inside->is_off)
        say_note("the store '%s' %s", store_file, sim_conversion_text);
    return inside;
}

void inside_take(struct inside *inside, const uint8_t *bytes, size_t count)
{
    for (size_t i = 0; i < count && !inside->is_off; i++)
        follow(inside, sim_byte(&inside->sim, bytes[i]));
}

bool inside_give(struct inside *inside, uint8_t *b)
{
    if (inside->out_at == inside->out_end)
        return false;
    *b = inside->out[inside->out_at++];
    return true;
}

void inside_gap(struct inside *inside)
{
    sim_gap(&inside->sim);
}

void inside_close(struct inside *inside)
{
    if (inside->name != NULL)
        store_file_close(&inside->file);
    free(inside);
}
