// Writes the recording that measure/board and measure/replay play: packets of all kinds but accepted erases, to this board, to all and
// to others, good, nearly good and damaged, and junk.
#![allow(dead_code)]
#[path = "../host/test/board_against_rust/inputs.rs"]
mod inputs;
#[path = "../host/test/board_against_rust/plain.rs"]
mod plain;

use std::io::Write;

const BYTES: usize = 10_000_000;
const SEED: u64 = 0x5EED_000A;
const ID: u8 = 1;

fn main() -> std::io::Result<()> {
    let mut random = inputs::Random(SEED);
    let mut recording = Vec::with_capacity(BYTES + 100);
    while recording.len() < BYTES {
        recording.extend(inputs::line(&mut random, ID, false));
    }
    std::io::stdout().write_all(&recording[..BYTES])
}
