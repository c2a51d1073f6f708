// Compares the proved board, called over C, with the plain one of plain.rs, in lists of bytes, gaps, erase steps and power cuts:
// every answer, number and length, the whole lent buffer and all stored bytes after each call.
mod inputs;
mod library;
mod plain;

use inputs::{bad_identity, hex, identity, line, spoil, store, Identity, Random};
use library::{Call, Lent, Told, STATE};
use plain::{Answer, Board, UNUSED};

const SEED: u64 = 0x5EED_0002;
const CALLS: u64 = 12_000_000;
const SPOILED_STATES: u64 = 400_000;

// Each answer, each refusal and each kind of reply has to come up so often.
const LEAST: u64 = 100;

#[derive(Default)]
struct Counts {
    answers: [u64; 7],
    refusals: [u64; 14],
    starts: [u64; 14],
    conversions: u64,
    replies: std::collections::BTreeMap<Vec<u8>, u64>,
}

impl Counts {
    fn add(&mut self, told: Told, reply: &[u8]) {
        self.answers[told.kind as usize] += 1;
        if told.kind == 5 {
            self.refusals[told.refusal as usize] += 1;
        }
        if told.kind == 6 {
            *self.replies.entry(reply_name(&reply[..told.size])).or_insert(0) += 1;
        }
    }

    fn calls(&self) -> u64 {
        self.answers.iter().chain(&self.starts).sum()
    }
}

// What tells one kind of reply from another: its type, and of its text the result and the operation type, or the name.
fn reply_name(packet: &[u8]) -> Vec<u8> {
    let (kind, text) = (packet[4], &packet[8..packet.len() - 3]);
    let shown = match kind {
        b'B' if [b"C312", b"C322", b"C315"].iter().any(|name| text.starts_with(*name)) => &text[..6],
        b'B' => &text[..text.len().min(4)],
        _ => &[text[0], text[1], text[6], text[7]],
    };
    [&[kind, b' '], shown].concat()
}

// The replies that have to come up: type, and the beginning of the text or result and operation type.
const REPLIES: [&str; 24] = [
    "D 0000", "D 0001", "D 0100", "F 0000", "F 0001", "F 0100", "F 0101", "B BE", "B 0200", "B 00C2", "B 01C2", "B C311",
    "B C31200", "B C31201", "B C316", "B C317", "B F110", "B F112", "B F111", "B C321", "B C32200", "B C32201", "B C31500",
    "B C31501",
];

// A board of each sort, with the memory that it was lent.
struct Pair {
    identity: Identity,
    plain: Board,
    plain_store: Lent,
    plain_reply: Lent,
    state: Lent,
    state_before: Lent,
    store: Lent,
    reply: Lent,
}

// What a list has done so far, for the case that the boards differ.
enum Note {
    Call(Call, usize),
    Other(String),
}

impl Note {
    fn text(&self) -> String {
        match self {
            Note::Call(call, room) => format!("{call:X?} room {room}"),
            Note::Other(text) => text.clone(),
        }
    }
}

struct Comparison {
    random: Random,
    counts: Counts,
    list: u64,
    notes: Vec<Note>,
}

impl Comparison {
    fn differ(&self, what: &str) -> ! {
        eprintln!("board_against_rust: list {}: {what}", self.list);
        let last: Vec<String> = self.notes[self.notes.len().saturating_sub(100)..].iter().map(Note::text).collect();
        eprintln!("the last calls: {}", last.join(", "));
        std::process::exit(1);
    }

    fn note(&mut self, text: String) {
        self.notes.push(Note::Other(text));
    }

    fn expect(&self, good: bool, what: impl FnOnce() -> String) {
        if !good {
            self.differ(&what());
        }
    }

    // Starts both on the same bytes; the state's place holds anything before.
    fn start(&mut self, identity: &Identity, bytes: &[u8]) -> Option<(Board, Lent, Lent)> {
        let mut state = Lent::of(&self.random.bytes(STATE));
        let (state_before, mut store, mut plain_store) = (state.clone(), Lent::of(bytes), Lent::of(bytes));
        let plain = Board::start(identity.id, &identity.serial, &identity.model, plain_store.bytes_mut());
        let result = library::start(identity, &mut store, &mut state);
        let expected = plain.as_ref().err().copied().unwrap_or(0);
        self.note(format!("start {identity:X?} on {}", hex(bytes)));
        self.counts.starts[expected as usize] += 1;
        self.counts.conversions += u64::from(plain_store.bytes() != bytes);
        self.expect(result == expected, || format!("start gave {result}, expected {expected}"));
        self.expect(store == plain_store, || format!("start left the store {store:X?}, expected {plain_store:X?}"));
        self.expect(result == 0 || store == Lent::of(bytes), || "a refused start changed the store".into());
        self.expect(result == 0 || state == state_before, || "a refused start changed the state".into());
        plain.ok().map(|plain| (plain, state, store))
    }

    fn pair(&mut self, identity: Identity, bytes: Vec<u8>) -> Option<Pair> {
        let (plain, state, store) = self.start(&identity, &bytes)?;
        let (plain_store, state_before) = (store.clone(), state.clone());
        let (plain_reply, reply) = (Lent::of(&[]), Lent::of(&[]));
        Some(Pair { identity, plain, plain_store, plain_reply, state, state_before, store, reply })
    }

    // A power cut and the start after it.
    fn cut(&mut self, pair: &mut Pair) -> bool {
        let Some((plain, state, store)) = self.start(&pair.identity, pair.plain_store.bytes()) else {
            return false;
        };
        (pair.plain, pair.state, pair.plain_store) = (plain, state, store.clone());
        pair.store = store;
        true
    }

    fn room(&mut self) -> usize {
        match self.random.below(1000) {
            0 => self.random.below(64),
            1 => 63,
            2..=200 => self.random.from_to(64, 200),
            _ => 64,
        }
    }

    fn call(&mut self, pair: &mut Pair, call: Call) {
        let (room, pattern) = (self.room(), self.random.byte());
        pair.plain_reply.fill(room, pattern);
        pair.reply.fill(room, pattern);
        pair.state_before.clone_from(&pair.state);
        let lent = pair.plain_reply.bytes_mut();
        let plain: Told = match call {
            Call::Byte(b) => pair.plain.byte(pair.plain_store.bytes_mut(), b, lent),
            Call::Gap => pair.plain.gap(pair.plain_store.bytes()),
            Call::Step => pair.plain.step(pair.plain_store.bytes_mut(), lent),
        }
        .into();
        let proved = library::call(call, &mut pair.state, &mut pair.store, &mut pair.reply);
        self.notes.push(Note::Call(call, room));
        self.expect(proved == plain, || format!("{proved:?}, expected {plain:?}"));
        self.expect(pair.reply == pair.plain_reply, || format!("buffer {:X?}, expected {:X?}", pair.reply, pair.plain_reply));
        self.expect(pair.store == pair.plain_store, || format!("store {:X?}, expected {:X?}", pair.store, pair.plain_store));
        let keeps_all = plain.kind == 5 && (plain.refusal == 1 || plain.refusal >= 9);
        self.expect(!keeps_all || pair.state == pair.state_before, || "the state changed".into());
        self.counts.add(plain, pair.reply.bytes());
    }

    // One event other than a whole packet; false where no board is left.
    fn event(&mut self, pair: &mut Pair) -> bool {
        match self.random.below(20) {
            0..=6 => self.call(pair, Call::Gap),
            7..=12 => self.call(pair, Call::Step),
            13..=16 => return self.cut(pair),
            17..=18 => return self.spoiled_store(pair),
            _ => self.other_store_size(pair),
        }
        true
    }

    // Both boards get another store, as no call leaves one.
    fn change_store(&mut self, pair: &mut Pair, bytes: &[u8]) {
        pair.plain_store = Lent::of(bytes);
        pair.store = Lent::of(bytes);
        self.note(format!("store of {} bytes now {}", bytes.len(), hex(bytes)));
    }

    // Somebody else changes the store; some calls later it is put back, or there is a cut.
    fn spoiled_store(&mut self, pair: &mut Pair) -> bool {
        let before = pair.plain_store.bytes().to_vec();
        let mut spoiled = before.clone();
        spoil(&mut self.random, &mut spoiled);
        self.change_store(pair, &spoiled);
        self.some_calls(pair);
        if self.random.one_in(2) {
            return self.cut(pair);
        }
        if pair.plain_store.bytes() == spoiled {
            self.change_store(pair, &before);
        }
        true
    }

    fn other_store_size(&mut self, pair: &mut Pair) {
        let before = pair.plain_store.bytes().to_vec();
        let mut resized = before.clone();
        resized.resize(self.random.pick(&[0, 1, 12, 127, 129, 256, 384]), 0);
        self.change_store(pair, &resized);
        self.some_calls(pair);
        self.change_store(pair, &before);
    }

    fn some_calls(&mut self, pair: &mut Pair) {
        for _ in 0..self.random.from_to(1, 6) {
            let call = self.any_call();
            self.call(pair, call);
        }
    }

    fn any_call(&mut self) -> Call {
        match self.random.below(4) {
            0 => Call::Gap,
            1 => Call::Step,
            2 => Call::Byte(0x01),
            _ => Call::Byte(self.random.byte()),
        }
    }

    // While an erase is pending: mostly steps.
    fn erase(&mut self, pair: &mut Pair) -> bool {
        while pair.plain.is_erasing() {
            match self.random.below(400) {
                0..=4 => self.call(pair, Call::Byte(0x01)),
                5..=9 => self.call(pair, Call::Gap),
                10..=11 if !self.event(pair) => return false,
                12..=13 => return true,
                _ => self.call(pair, Call::Step),
            }
        }
        true
    }

    // The bytes of a line, now and then with an event between two of them.
    fn bytes(&mut self, pair: &mut Pair, bytes: &[u8]) -> bool {
        for &b in bytes {
            self.call(pair, Call::Byte(b));
            if self.random.one_in(300) && !self.event(pair) {
                return false;
            }
        }
        true
    }

    fn list(&mut self) {
        let identity = if self.random.one_in(40) { bad_identity(&mut self.random) } else { identity(&mut self.random) };
        let bytes = store(&mut self.random);
        let Some(mut pair) = self.pair(identity, bytes) else {
            return;
        };
        for _ in 0..self.random.from_to(1, 60) {
            let alive = match self.random.below(20) {
                0 => self.event(&mut pair),
                _ => {
                    let bytes = line(&mut self.random, pair.identity.id, true);
                    self.bytes(&mut pair, &bytes)
                }
            };
            if !alive || !self.erase(&mut pair) {
                return;
            }
            if self.random.one_in(2) {
                self.call(&mut pair, Call::Gap);
            }
        }
    }

    // Each list has a seed of its own.
    fn lists(&mut self) {
        while self.counts.calls() < CALLS {
            self.list += 1;
            self.random = Random(SEED ^ self.list << 32);
            self.notes.clear();
            self.list();
        }
    }
}

// ---- states that are not a board's

// What came of calls on changed states.
#[derive(Default)]
struct Spoiled {
    refused: u64,
    taken: u64,
}

impl Comparison {
    // A board with some bytes held or an erase under way.
    fn busy_pair(&mut self) -> Pair {
        let identity = identity(&mut self.random);
        let mut pair = loop {
            let bytes = store(&mut self.random);
            if let Some(pair) = self.pair(identity.clone(), bytes) {
                break pair;
            }
        };
        for _ in 0..self.random.below(3) {
            let bytes = line(&mut self.random, identity.id, true);
            let count = self.random.below(bytes.len() + 1);
            bytes[..count].iter().for_each(|&b| self.call(&mut pair, Call::Byte(b)));
        }
        pair
    }

    fn spoil_state(&mut self, state: &Lent) -> Lent {
        let mut bytes = state.bytes().to_vec();
        match self.random.below(8) {
            0 => bytes = self.random.bytes(STATE),
            1 => bytes.resize(self.random.pick(&[0, 1, 110, 112, 222]), 0),
            2 => bytes.fill(self.random.pick(&[0x00, 0xFF])),
            _ => {
                for _ in 0..self.random.from_to(1, 4) {
                    let place = self.random.below(STATE);
                    bytes[place] ^= self.random.byte();
                }
            }
        }
        Lent::of(&bytes)
    }

    // A changed state may happen to be a sound one: then any answer will do. Else the call is refused, and nothing has changed.
    fn spoiled_state(&mut self, spoiled: &mut Spoiled) {
        let mut pair = self.busy_pair();
        pair.state = self.spoil_state(&pair.state);
        let is_no_state = pair.state.bytes().len() != STATE;
        let (state, store, call) = (pair.state.clone(), pair.store.clone(), self.any_call());
        let (room, pattern) = (self.room(), self.random.byte());
        pair.reply.fill(room, pattern);
        let reply = pair.reply.clone();
        let told = library::call(call, &mut pair.state, &mut pair.store, &mut pair.reply);
        self.note(format!("{call:X?} room {room} on state {}", hex(state.bytes())));
        let is_short = room < 64 && !matches!(call, Call::Gap);
        let expected: Told = Answer::Refused(if is_short { 10 } else { 12 }).into();
        if told == expected {
            let kept = pair.state == state && pair.store == store && pair.reply == reply;
            self.expect(kept, || format!("refused with {}, but something changed", told.refusal));
            spoiled.refused += 1;
        } else {
            self.expect(!is_short && !is_no_state && told.kind < 7, || format!("{told:?}, expected {expected:?}"));
            spoiled.taken += 1;
        }
    }

    fn spoiled_states(&mut self) -> Spoiled {
        let mut spoiled = Spoiled::default();
        for round in 0..SPOILED_STATES {
            self.list = round;
            self.random = Random(SEED << 16 ^ round << 32);
            self.notes.clear();
            self.spoiled_state(&mut spoiled);
        }
        spoiled
    }

    // A start with a place of another size for the state: 11 and 12 as ever, else 12.
    fn other_state_sizes(&mut self) {
        for size in [0, 1, 110, 112, 300] {
            for mark in [0x00, 0x01, 0xE7, 0x02] {
                let (mut bytes, mut state) = (UNUSED, Lent::of(&vec![7; size]));
                bytes[0] = mark;
                let mut store = Lent::of(&bytes);
                let result = library::start(&identity(&mut self.random), &mut store, &mut state);
                let expected = if mark == 0x02 { 11 } else { 12 };
                self.expect(result == expected, || format!("state of {size} bytes: start gave {result}, expected {expected}"));
                self.expect(state == Lent::of(&vec![7; size]), || "a refused start changed the state".into());
                self.expect(store == Lent::of(&bytes), || "a refused start changed the store".into());
            }
        }
    }

    fn unused_stores(&mut self) {
        for size in 0..=300 {
            let before = self.random.bytes(size);
            let mut store = Lent::of(&before);
            let result = library::unused(&mut store);
            let (expected, after) = if size == 128 { (0, &UNUSED[..]) } else { (11, &before[..]) };
            let good = result == expected && store == Lent::of(after);
            self.expect(good, || format!("unused store of {size} bytes: {result}, {store:X?}"));
        }
    }
}

fn shown(name: &str, counts: &[(String, u64)]) {
    let list: Vec<String> = counts.iter().map(|(what, count)| format!("{what}: {count}")).collect();
    println!("{name}: {}", list.join(", "));
}

// Prints how often each came up, and says whether that is often enough.
fn all_came_up(counts: &Counts) -> bool {
    let names = ["waiting", "silent", "begun", "more", "ended", "refused", "reply"];
    let answers: Vec<_> = names.iter().zip(counts.answers).map(|(name, count)| (name.to_string(), count)).collect();
    let refusals: Vec<_> = (1..=13).filter(|&n| n != 11).map(|n| (n.to_string(), counts.refusals[n])).collect();
    let mut starts: Vec<_> = [0, 11, 12].iter().map(|&n| (n.to_string(), counts.starts[n])).collect();
    starts.push(("with a conversion".into(), counts.conversions));
    let reply = |name: &&str| (name.to_string(), counts.replies.get(name.as_bytes()).copied().unwrap_or(0));
    let replies: Vec<_> = REPLIES.iter().map(reply).collect();
    shown("answers", &answers);
    shown("refusals", &refusals);
    shown("starts", &starts);
    shown("replies, by type, result and operation type or name", &replies);
    [answers, refusals, starts, replies].iter().flatten().all(|(_, count)| *count >= LEAST)
}

fn main() {
    println!("seed {SEED:X}");
    let mut comparison = Comparison { random: Random(SEED), counts: Counts::default(), list: 0, notes: Vec::new() };
    comparison.other_state_sizes();
    comparison.unused_stores();
    comparison.lists();
    let (counts, lists) = (std::mem::take(&mut comparison.counts), comparison.list);
    if !all_came_up(&counts) {
        eprintln!("board_against_rust: one of these came up fewer than {LEAST} times");
        std::process::exit(1);
    }
    let spoiled = comparison.spoiled_states();
    println!("changed states: {} refused with nothing changed, {} taken for sound", spoiled.refused, spoiled.taken);
    println!("board_against_rust: {} calls in {lists} lists alike", counts.calls());
}
