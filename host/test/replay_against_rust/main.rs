// The program replay in plain Rust, written from docs/RULES.md (RT4) by itself, over the board of plain.rs; and inputs for both.
//   transcript          reads bytes from standard input and writes their transcript
//   lines SEED BYTES    writes packets whole, near and damaged, with erases among them: at least so many bytes
#[allow(dead_code)]
#[path = "../board_against_rust/inputs.rs"]
mod inputs;
#[allow(dead_code)]
#[path = "../board_against_rust/plain.rs"]
mod plain;

use inputs::{hex, line, Random};
use plain::{Answer, Board, ROOM, UNUSED};
use std::io::{self, BufWriter, Read, Write};

const ID: u8 = 1;
const STEPS: usize = 128;

// The line of an answer after so many bytes; none for waiting and more.
fn told(at: usize, answer: Answer, reply: &[u8]) -> Option<String> {
    Some(match answer {
        Answer::Waiting | Answer::More => return None,
        Answer::Silent => format!("{at} silent\n"),
        Answer::Begun => format!("{at} begun\n"),
        Answer::Ended => format!("{at} ended\n"),
        Answer::Refused(number) => format!("{at} refused {number}\n"),
        Answer::Reply(length) => format!("{at} reply {}\n", hex(&reply[..length])),
    })
}

fn transcript(bytes: &[u8], out: &mut impl Write) -> io::Result<()> {
    let (mut store, mut reply) = (UNUSED, [0; ROOM]);
    let mut board = Board::start(ID, b"", b"", &mut store).expect("the unused board starts");
    writeln!(out, "at kind data")?;
    for (before, &byte) in bytes.iter().enumerate() {
        let mut tell = |answer, reply: &[u8]| match told(before + 1, answer, reply) {
            Some(line) => out.write_all(line.as_bytes()),
            None => Ok(()),
        };
        let answer = board.byte(&mut store, byte, &mut reply);
        tell(answer, &reply)?;
        let steps = if answer == Answer::Begun { STEPS } else { 0 };
        for _ in 0..steps {
            let answer = board.step(&mut store, &mut reply);
            tell(answer, &reply)?;
        }
    }
    Ok(())
}

fn lines(seed: u64, least: usize, out: &mut impl Write) -> io::Result<()> {
    let (mut random, mut count) = (Random(seed), 0);
    while count < least {
        let bytes = line(&mut random, ID, true);
        count += bytes.len();
        out.write_all(&bytes)?;
    }
    Ok(())
}

fn main() -> io::Result<()> {
    let words: Vec<String> = std::env::args().skip(1).collect();
    let words: Vec<&str> = words.iter().map(String::as_str).collect();
    let mut out = BufWriter::new(io::stdout().lock());
    match words[..] {
        ["transcript"] => {
            let mut bytes = Vec::new();
            io::stdin().read_to_end(&mut bytes)?;
            transcript(&bytes, &mut out)?;
        }
        ["lines", seed, bytes] => {
            let (seed, bytes) = (seed.parse().expect("a seed"), bytes.parse().expect("a number of bytes"));
            lines(seed, bytes, &mut out)?;
        }
        _ => panic!("transcript, or lines SEED BYTES"),
    }
    out.flush()
}
