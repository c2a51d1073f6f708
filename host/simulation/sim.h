/*
 * A simulated board: the calls of board.h with the memory they are lent. It knows no file, no line and no clock.
 *
 * The store belongs to the caller, who may keep it in a file. Everything else is lost in a power cut, so
 * throwing a struct sim away and starting another one on the same store is a cut.
 */
#ifndef SIM_H
#define SIM_H

#include "board.h"

#include <stdbool.h>

#define SIM_STORE_SIZE BOARD_STORE_SIZE

struct sim {
    uint8_t *store; /* 128 bytes, lent for the board's life */
    uint8_t state[BOARD_STATE_SIZE];
    uint8_t reply[BOARD_REPLY_ROOM]; /* the reply of the last call that gave one */
    size_t reply_len;
    uint8_t refusal;   /* of the last refused call */
    bool is_converted; /* the store was older than the programs, and the start has given it unused ones */
};

/*
 * Starts a board on a store. The result is 0, or the refusal: then there is no board, and `store` is as it was. A start may store,
 * and `is_converted` tells that it has.
 */
uint8_t sim_start(struct sim *sim, uint8_t *store, uint8_t id, const uint8_t *serial, size_t serial_len, const uint8_t *model,
                  size_t model_len);

/* Each of these returns a board_answer. With BOARD_REPLY the reply is in `reply`, with BOARD_REFUSED the number is in `refusal`. */
uint8_t sim_byte(struct sim *sim, uint8_t b);
uint8_t sim_gap(struct sim *sim);
uint8_t sim_step(struct sim *sim);

/* Whether an erase is pending: byte 0 of the store is E7h. */
bool sim_is_erasing(const struct sim *sim);

/* What a start has done that converted a store, to stand behind the store's name. */
extern const char sim_conversion_text[];

/* A sentence with no full stop: what a refusal means and what was left unchanged. */
const char *sim_refusal_text(uint8_t refusal);

#endif
