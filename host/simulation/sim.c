/* A simulated board: the calls of board.h with the memory they are lent. */
#include "sim.h"

#include <string.h>

/* The mark of a store whose erase is pending. */
enum { ERASE_MARK = 0xE7 };

uint8_t sim_start(struct sim *sim, uint8_t *store, uint8_t id, const uint8_t *serial, size_t serial_len, const uint8_t *model,
                  size_t model_len)
{
    uint8_t mark = store[0];

    memset(sim, 0, sizeof *sim);
    sim->store = store;
    sim->refusal = board_start(id, serial, serial_len, model, model_len, store, SIM_STORE_SIZE, sim->state, sizeof sim->state);
    sim->is_converted = store[0] != mark;
    return sim->refusal;
}

uint8_t sim_byte(struct sim *sim, uint8_t b)
{
    return board_byte(sim->state, sizeof sim->state, sim->store, SIM_STORE_SIZE, b, sim->reply, sizeof sim->reply, &sim->reply_len,
                      &sim->refusal);
}

uint8_t sim_gap(struct sim *sim)
{
    return board_gap(sim->state, sizeof sim->state, sim->store, SIM_STORE_SIZE, &sim->refusal);
}

uint8_t sim_step(struct sim *sim)
{
    return board_step(sim->state, sizeof sim->state, sim->store, SIM_STORE_SIZE, sim->reply, sizeof sim->reply, &sim->reply_len,
                      &sim->refusal);
}

bool sim_is_erasing(const struct sim *sim)
{
    return sim->store[0] == ERASE_MARK;
}

const char sim_conversion_text[] = "had mark 00h, without programs: it has seven unused ones and mark 01h now";

const char *sim_refusal_text(uint8_t refusal)
{
    switch (refusal) {
    case BOARD_REFUSED_NO_START:
        return "the byte is not 01h and begins no packet; nothing has changed";
    case BOARD_REFUSED_HEADER:
        return "the packet's reserved or source byte is not '0'; it is dropped, the store is unchanged";
    case BOARD_REFUSED_MESSAGE_TYPE:
        return "the packet's type is not A, C or E; it is dropped, the store is unchanged";
    case BOARD_REFUSED_LENGTH:
        return "the packet's length is not two digits for 4 to 64; it is dropped, the store is unchanged";
    case BOARD_REFUSED_NO_RETURN:
        return "the packet does not end with CR; it is dropped, the store is unchanged";
    case BOARD_REFUSED_CHECK_CODE:
        return "the packet's check code is wrong; it is dropped, the store is unchanged";
    case BOARD_REFUSED_MESSAGE:
        return "the message does not stand between STX and ETX; it is dropped, the store is unchanged";
    case BOARD_REFUSED_DESTINATION:
        return "the packet is for another board; it is dropped, the store is unchanged";
    case BOARD_REFUSED_ERASE_PENDING:
        return "an erase is pending, and the board listens to nothing until it ends; nothing has changed";
    case BOARD_REFUSED_SHORT_BUFFER:
        return "the room for a reply is below 64 bytes; nothing has changed";
    case BOARD_REFUSED_NOT_A_STORE:
        return "this is not a board's store of 128 bytes with 00h, 01h or E7h in front; nothing has changed";
    case BOARD_REFUSED_UNSOUND:
        return "the board's state, its store or its identity holds what no board can hold; nothing has changed";
    case BOARD_REFUSED_NO_ERASE_PENDING:
        return "an erase step was asked for, but no erase is pending; nothing has changed";
    default:
        return "a number that no call of the board gives";
    }
}
