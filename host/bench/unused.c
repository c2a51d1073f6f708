/* What an unused board shows: a simulated one is asked, whose calls are proved. */
#include "unused.h"

#include "simulation/sim.h"

bool unused_reply(const struct identity *identity, const struct request *request, struct reply *reply)
{
    uint8_t store[SIM_STORE_SIZE], answer = BOARD_WAITING;
    struct packet packet;
    struct sim board;

    board_unused(store, sizeof store);
    if (request_encode(request, &packet) != 0)
        return false;
    if (sim_start(&board, store, (uint8_t)request->dest, identity->serial.bytes, identity->serial.count, identity->model.bytes,
                  identity->model.count) != 0)
        return false;
    for (size_t i = 0; i < packet.len; i++)
        answer = sim_byte(&board, packet.bytes[i]);
    return answer == BOARD_REPLY && reply_read(reply, board.reply, board.reply_len);
}
