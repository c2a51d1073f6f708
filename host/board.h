/*
 * The control board as C functions on numbers and bytes: start, byte, gap, erase step, and the bytes of an unused store.
 *
 * Document 01 ('How bytes become a packet', 'What a good packet does', 'Store', 'Erase') and document 02, which amends it, decide
 * what they do, and the names here are their names. Each function is proved to do so for every input, and a board whose accepted
 * erase has run to its end, whatever bytes, gaps and power cuts came between, is proved to be as one that was never used. The
 * firmware that calls them is checked by nothing, so the caller has to keep this:
 *
 * - Behind each pointer stand as many bytes as the length after it says; behind `size` and `refusal` stands one element.
 * - The buffers and places of one call do not overlap.
 * - A null pointer is passed only with length 0, and better not even then; `size` and `refusal` are never null.
 * - One caller at a time: while a call runs, no one else writes what it was lent or uses what it may write.
 * - Between two calls nobody but the board changes its state or its store. Only a start gives a state; a state goes with the store
 *   it was started on.
 * - The store takes each byte whole or not at all, one after another in the order they are stored, and keeps them without supply.
 * - The supply holds up for 40 byte stores once a call has begun, so that only an erase can be cut. What a call stores is planned
 *   first, and the plan is proved to be one byte in an erase step that runs, none in a refused call and in any other while an erase
 *   is pending, and at most 40 in every other call. That the machine stores the plan's bytes one by one in its order is tried, for
 *   x86-64 (host/test/board_stores.c); on another machine it has to be tried again.
 * - After a power cut the board is started again on the same store, with the same ID, serial number and model.
 *
 * The functions keep nothing of their own, so boards with a state and a store each may run beside one another.
 *
 * What a call does not say to write, it leaves as it was.
 */
#ifndef BOARD_H
#define BOARD_H

#include <stddef.h>
#include <stdint.h>

#ifdef __cplusplus
extern "C" {
#endif

/* The bytes of a board's state. Their layout is not promised, and another version may have another size. */
#define BOARD_STATE_SIZE 111

/* The bytes of a store. */
#define BOARD_STORE_SIZE 128

/* The least room for a reply, in bytes. */
#define BOARD_REPLY_ROOM 64

/* The longest serial number and the longest model, in bytes. */
#define BOARD_TEXT_MAX 16

/* The steps of an erase, from its acceptance or from the latest start. */
#define BOARD_ERASE_STEPS 128

/* What a byte, a gap or a step answers. */
enum board_answer {
    BOARD_WAITING = 0, /* a packet is not whole yet; or a gap emptied the receiver */
    BOARD_SILENT = 1,  /* a packet to all boards was acted on: nothing to send */
    BOARD_BEGUN = 2,   /* an erase was accepted: call board_step until it ends */
    BOARD_MORE = 3,    /* a step has run, and more are to come */
    BOARD_ENDED = 4,   /* the last step has run: nothing to send */
    BOARD_REFUSED = 5, /* the number is in `refusal` */
    BOARD_REPLY = 6    /* a reply is to be sent: the first `size` bytes of `reply` */
};

/* Why a call is refused. After 2 to 8 nothing is held any more and nothing else has changed; the others change nothing at all. */
enum board_refusal {
    BOARD_REFUSED_NO_START = 1,         /* nothing held, and the byte is not 01h */
    BOARD_REFUSED_HEADER = 2,           /* reserved or source byte is not '0' */
    BOARD_REFUSED_MESSAGE_TYPE = 3,     /* type is not A, C or E */
    BOARD_REFUSED_LENGTH = 4,           /* length digits bad, or outside 4 to 64 */
    BOARD_REFUSED_NO_RETURN = 5,        /* the last byte is not CR */
    BOARD_REFUSED_CHECK_CODE = 6,       /* the check code differs */
    BOARD_REFUSED_MESSAGE = 7,          /* the message does not begin with STX and end with ETX */
    BOARD_REFUSED_DESTINATION = 8,      /* the packet is for another board */
    BOARD_REFUSED_ERASE_PENDING = 9,    /* a byte or a gap while an erase is pending */
    BOARD_REFUSED_SHORT_BUFFER = 10,    /* the room for a reply is below BOARD_REPLY_ROOM */
    BOARD_REFUSED_NOT_A_STORE = 11,     /* start: not 128 bytes, or byte 0 neither 00h, 01h nor E7h */
    BOARD_REFUSED_UNSOUND = 12,         /* state, store, its fields, its programs or the identity are not sound */
    BOARD_REFUSED_NO_ERASE_PENDING = 13 /* a step with no erase pending */
};

/*
 * Starts a board: at power-on and after each power cut.
 *
 *   id                  1 to 8
 *   serial, serial_len  the serial number, 0 to 16 bytes of any value
 *   model, model_len    the model, 0 to 16 bytes of any value
 *   store, store_len    the store, of BOARD_STORE_SIZE bytes
 *   state, state_len    the place for the board's state, of BOARD_STATE_SIZE bytes; what it holds before does not matter
 *
 * Byte 0 of the store is its mark: 01h with programs in bytes 44 to 78; 00h of a store that is older than the programs and may hold
 * anything there; E7h while an erase is pending.
 *
 * The result is 0, or a refusal, checked in this order: 11 where store_len is not 128, or the mark is none of these; 12 where the
 * identity is outside these ranges, where with 00h or 01h a field is out of range, or where with 01h a program is; 12 where
 * state_len is not 111. A refused start writes nothing, neither to the state nor to the store.
 *
 * Else the state is written. Serial number and model are copied into it and may go. With 00h or 01h the board holds nothing and no
 * erase is pending; with E7h an erase is pending from its first step, whatever the other bytes hold, and no reply is owed.
 *
 * A start on 00h stores 36 bytes: unused programs, C7 98 F0 00 00 seven times, in bytes 44 to 78, and then the mark 01h. A start on
 * 01h or E7h stores nothing. So a board that runs has the mark 01h or E7h.
 */
uint8_t board_start(uint8_t id, const uint8_t *serial, size_t serial_len, const uint8_t *model, size_t model_len, uint8_t *store,
                    size_t store_len, uint8_t *state, size_t state_len);

/*
 * Gives the board one byte from the line. The digits of a packet may come in either case, its address, its type and its name in
 * capitals; the digits of a reply are in capitals.
 *
 *   state, state_len    the state that the last call left
 *   store, store_len    the store that the last call left
 *   b                   the byte
 *   reply, reply_len    the buffer for a reply, of at least BOARD_REPLY_ROOM bytes at every byte
 *   size                the place for the reply's length
 *   refusal             the place for a refusal's number
 *
 * The result is a board_answer: BOARD_WAITING, BOARD_SILENT, BOARD_BEGUN, BOARD_REFUSED or BOARD_REPLY. Refusals are checked in
 * this order: 10 where reply_len is below 64; 12 where the state, a state_len other than 111 included, or the store, a store_len
 * other than 128 included, is not sound; 9 while an erase is pending; then 1 to 8.
 *
 * BOARD_REPLY writes the length to `size` and so many bytes to the start of `reply`; BOARD_REFUSED writes the number to `refusal`.
 * Each of the three is else as it was, `reply` behind its length too.
 *
 * A packet that is acted on may change the store: an accepted Set one setting, a power, date, tag or schedule write what it names,
 * an enable one bit of a program, and an accepted erase byte 0, which becomes E7h. With BOARD_WAITING and all refusals the store is
 * as it was. With refusals 1 and 9 to 13 the state, too, is byte for byte as it was.
 */
uint8_t board_byte(uint8_t *state, size_t state_len, uint8_t *store, size_t store_len, uint8_t b, uint8_t *reply, size_t reply_len,
                   size_t *size, uint8_t *refusal);

/*
 * Tells the board of a gap: 100 ms of silence on the line.
 *
 * The result is BOARD_WAITING, and nothing is held any more; or BOARD_REFUSED with the number in `refusal`, 12 as for a byte, then
 * 9 while an erase is pending, and the state is as it was. The store is only read.
 */
uint8_t board_gap(uint8_t *state, size_t state_len, const uint8_t *store, size_t store_len, uint8_t *refusal);

/*
 * Runs one step of a pending erase, which stores exactly one byte.
 *
 * What is lent is the same as for a byte. The result is BOARD_MORE 127 times; the 128th step, counted from the acceptance or from
 * the latest start, answers BOARD_REPLY with the reply to the erase request, or BOARD_ENDED where the request went to all boards or
 * a start came between. Then the 128 bytes are those of an unused board, and the bytes of the state are those that a start gives on
 * them: nothing of the past is left in either. What the last replies left in the caller's buffers is the caller's to clear.
 *
 * Or the result is BOARD_REFUSED with the number in `refusal`, and the step has not run: 10 where reply_len is below 64; 12 as for
 * a byte; 13 with no erase pending. Then state, store and buffer are as they were.
 *
 * `size`, `refusal` and `reply` are written as for a byte.
 */
uint8_t board_step(uint8_t *state, size_t state_len, uint8_t *store, size_t store_len, uint8_t *reply, size_t reply_len,
                   size_t *size, uint8_t *refusal);

/*
 * Fills a store with the bytes of an unused board, as a new board gets it: on, Saturday 1 January 2000, no tags, unused programs.
 *
 * The result is 0; or 11 where store_len is not 128, and nothing is written. This is no way to erase a board in use: a power cut
 * can stop it anywhere, and nothing would show that.
 */
uint8_t board_unused(uint8_t *store, size_t store_len);

#ifdef __cplusplus
}
#endif

#endif
