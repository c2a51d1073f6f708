// The plain Rust board of host/test/board_against_rust behind the functions of host/board.h, to be measured beside the proved one. It
// uses no standard library, as firmware would. Its state is the Rust value itself in the caller's memory.
#![no_std]
#[allow(dead_code)]
#[path = "../host/test/board_against_rust/plain.rs"]
mod plain;

use core::mem::MaybeUninit;
use core::slice::{from_raw_parts, from_raw_parts_mut};
use plain::{Answer, Board, UNUSED};

// The size of a state, which measure/board gives to the C programs.
const _: () = assert!(size_of::<Board>() == 160);

// Where a check of an index fails, the board stops.
#[panic_handler]
fn stop(_: &core::panic::PanicInfo) -> ! {
    loop {}
}

// The number of the answer's kind; a reply's length and a refusal's number go to their places.
fn told(answer: Answer, size: &mut usize, refusal: &mut u8) -> u8 {
    match answer {
        Answer::Waiting => 0,
        Answer::Silent => 1,
        Answer::Begun => 2,
        Answer::More => 3,
        Answer::Ended => 4,
        Answer::Refused(number) => {
            *refusal = number;
            5
        }
        Answer::Reply(len) => {
            *size = len;
            6
        }
    }
}

#[no_mangle]
unsafe extern "C" fn board_start(
    id: u8,
    serial: *const u8,
    serial_len: usize,
    model: *const u8,
    model_len: usize,
    store: *mut u8,
    store_len: usize,
    state: &mut MaybeUninit<Board>,
    state_len: usize,
) -> u8 {
    let (serial, model) = unsafe { (from_raw_parts(serial, serial_len), from_raw_parts(model, model_len)) };
    if state_len != size_of::<Board>() {
        return 12; // the proved one checks this behind the store; here it comes first, for a refused start stores nothing
    }
    match Board::start(id, serial, model, unsafe { from_raw_parts_mut(store, store_len) }) {
        Ok(board) => {
            state.write(board);
            0
        }
        Err(number) => number,
    }
}

#[no_mangle]
unsafe extern "C" fn board_byte(
    state: &mut Board,
    _state_len: usize,
    store: *mut u8,
    store_len: usize,
    b: u8,
    reply: *mut u8,
    reply_len: usize,
    size: &mut usize,
    refusal: &mut u8,
) -> u8 {
    let (store, reply) = unsafe { (from_raw_parts_mut(store, store_len), from_raw_parts_mut(reply, reply_len)) };
    told(state.byte(store, b, reply), size, refusal)
}

#[no_mangle]
unsafe extern "C" fn board_gap(state: &mut Board, _state_len: usize, store: *const u8, store_len: usize, refusal: &mut u8) -> u8 {
    told(state.gap(unsafe { from_raw_parts(store, store_len) }), &mut 0, refusal)
}

#[no_mangle]
unsafe extern "C" fn board_step(
    state: &mut Board,
    _state_len: usize,
    store: *mut u8,
    store_len: usize,
    reply: *mut u8,
    reply_len: usize,
    size: &mut usize,
    refusal: &mut u8,
) -> u8 {
    let (store, reply) = unsafe { (from_raw_parts_mut(store, store_len), from_raw_parts_mut(reply, reply_len)) };
    told(state.step(store, reply), size, refusal)
}

#[no_mangle]
unsafe extern "C" fn board_unused(store: *mut u8, store_len: usize) -> u8 {
    if store_len != UNUSED.len() {
        return 11;
    }
    unsafe { from_raw_parts_mut(store, store_len) }.copy_from_slice(&UNUSED);
    0
}
