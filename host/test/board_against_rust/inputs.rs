// Inputs from fixed seeds: identities, stores, and packets whole, near and damaged.
use crate::plain::{
    address, check_code, put, put_program, weekday_of, ALL, ERASING, FIELDS, MARK, OLD, PROGRAMS, PROGRAMS_END, PROGRAM_PLACE,
    STORE, UNUSED,
};

// The splitmix64 generator.
pub struct Random(pub u64);

impl Random {
    pub fn next(&mut self) -> u64 {
        self.0 = self.0.wrapping_add(0x9E37_79B9_7F4A_7C15);
        let z = (self.0 ^ self.0 >> 30).wrapping_mul(0xBF58_476D_1CE4_E5B9);
        let z = (z ^ z >> 27).wrapping_mul(0x94D0_49BB_1331_11EB);
        z ^ z >> 31
    }

    pub fn below(&mut self, end: usize) -> usize {
        (self.next() % end as u64) as usize
    }

    pub fn from_to(&mut self, first: usize, last: usize) -> usize {
        first + self.below(last - first + 1)
    }

    pub fn one_in(&mut self, n: usize) -> bool {
        self.below(n) == 0
    }

    pub fn byte(&mut self) -> u8 {
        self.next() as u8
    }

    pub fn bytes(&mut self, count: usize) -> Vec<u8> {
        (0..count).map(|_| self.byte()).collect()
    }

    pub fn pick<T: Copy>(&mut self, from: &[T]) -> T {
        from[self.below(from.len())]
    }
}

// ---- boards

#[derive(Clone, Debug)]
pub struct Identity {
    pub id: u8,
    pub serial: Vec<u8>,
    pub model: Vec<u8>,
}

pub fn identity(random: &mut Random) -> Identity {
    let (serial, model) = (random.from_to(0, 16), random.from_to(0, 16));
    Identity { id: random.from_to(1, 8) as u8, serial: random.bytes(serial), model: random.bytes(model) }
}

// An identity that is out of range in one place or more.
pub fn bad_identity(random: &mut Random) -> Identity {
    let mut identity = identity(random);
    let which = random.from_to(1, 7);
    if which & 1 != 0 {
        identity.id = if random.one_in(2) { random.pick(&[0, 9]) } else { random.from_to(9, 255) as u8 };
    }
    let lengths = [17, 18, 33, 255, 256, 257, 272];
    if which & 2 != 0 {
        let count = random.pick(&lengths);
        identity.serial = random.bytes(count);
    }
    if which & 4 != 0 {
        let count = random.pick(&lengths);
        identity.model = random.bytes(count);
    }
    identity
}

// A time of day, at the edges more often than elsewhere, or none.
fn time(random: &mut Random) -> [u8; 2] {
    match random.below(6) {
        0 => [24, 60],
        1 => [23, 59],
        2 => [0, 0],
        _ => [random.below(24) as u8, random.below(60) as u8],
    }
}

// Any bytes with good fields and programs in them: tags, spare bits and spare bytes may hold anything.
fn used_store(random: &mut Random) -> Vec<u8> {
    let mut store = random.bytes(STORE);
    store[0] = MARK;
    for program in 0..PROGRAMS {
        let ([on_hour, on_minute], [off_hour, off_minute]) = (time(random), time(random));
        let (input, week, flags) = (random.byte() & 3, random.byte() & 0x7F, random.byte() & 7);
        put_program(&mut store, program, [on_hour, on_minute, off_hour, off_minute, input, week, flags]);
    }
    for field in FIELDS {
        let value = match random.below(6) {
            0 => field.2,
            1 => field.3,
            _ => random.from_to(field.2.into(), field.3.into()) as u8,
        };
        put(&mut store, field, value);
    }
    store
}

// A store without programs: where they will stand it may hold anything, good programs too.
fn old_store(random: &mut Random) -> Vec<u8> {
    let mut store = used_store(random);
    if random.one_in(2) {
        let junk = random.bytes(PROGRAMS_END - PROGRAM_PLACE);
        store[PROGRAM_PLACE..PROGRAMS_END].copy_from_slice(&junk);
    }
    store[0] = OLD;
    if random.one_in(8) {
        let field = FIELDS[random.below(FIELDS.len())];
        put(&mut store, field, random.byte() & ((1u16 << field.1) - 1) as u8);
    }
    store
}

// Gives one program other times, often none that there are.
fn spoil_program(random: &mut Random, store: &mut [u8]) {
    let times = [23, 24, 25, 31].map(|hour| [hour, random.pick(&[0, 59, 60, 61, 63])]);
    let ([on_hour, on_minute], [off_hour, off_minute]) = (random.pick(&times), time(random));
    let program = random.below(PROGRAMS);
    put_program(store, program, [on_hour, on_minute, off_hour, off_minute, 0, 0x7F, 7]);
}

// Mostly a store on which a board starts.
pub fn store(random: &mut Random) -> Vec<u8> {
    match random.below(40) {
        0..=4 => UNUSED.to_vec(),
        5..=6 => {
            let mut store = random.bytes(STORE);
            store[0] = ERASING;
            store
        }
        7 => {
            let mut store = random.bytes(STORE);
            store[0] = random.pick(&[OLD, MARK]);
            store
        }
        10..=14 => old_store(random),
        15 => {
            let mut store = used_store(random);
            spoil_program(random, &mut store);
            store
        }
        8 => {
            let mut store = used_store(random);
            store[0] = random.byte();
            store
        }
        9 => {
            let mut store = used_store(random);
            store.resize(random.pick(&[0, 1, 64, 127, 129, 200, 256, 300]), 0);
            store
        }
        _ => used_store(random),
    }
}

// Changes a store as no board does; often into one that is not sound.
pub fn spoil(random: &mut Random, store: &mut [u8]) {
    match random.below(8) {
        0 => store[0] = random.pick(&[OLD, ERASING, MARK, 2, 0xE6, 0xFF]),
        6 => spoil_program(random, store),
        7 => store[random.from_to(PROGRAM_PLACE, PROGRAMS_END - 1)] = random.byte(),
        1..=3 => {
            let field = FIELDS[random.below(FIELDS.len())];
            put(store, field, random.byte() & ((1u16 << field.1) - 1) as u8)
        }
        4 => store[random.from_to(1, 11)] = random.byte(),
        _ => store[random.below(STORE)] ^= 1 << random.below(8),
    }
}

// ---- packets

// A packet around a text; L counts STX to ETX. The text may be too long for document 01.
fn packet(destination: u8, kind: u8, text: &[u8]) -> Vec<u8> {
    let mut packet = vec![0x01, b'0', destination, b'0', kind];
    packet.extend(format!("{:02X}", (text.len() + 2) & 0xFF).bytes());
    packet.push(0x02);
    packet.extend(text);
    packet.push(0x03);
    packet.push(check_code(&packet));
    packet.push(0x0D);
    packet
}

// Gives any bytes the check code that they should have.
fn mend_check_code(packet: &mut [u8]) {
    if packet.len() >= 3 {
        let place = packet.len() - 2;
        packet[place] = check_code(&packet[..place]);
    }
}

// Gives any bytes the length digits that they should have.
fn mend_length(packet: &mut [u8]) {
    if packet.len() >= 9 {
        let digits = format!("{:02X}", (packet.len() - 9) & 0xFF);
        packet[5..7].copy_from_slice(digits.as_bytes());
    }
}

// Small letters for some capitals: in the length, behind a name of four bytes, or anywhere behind the type. With the check code of these bytes.
fn respell(random: &mut Random, packet: &mut [u8]) {
    let end = packet.len() - 3;
    let places = match random.below(3) {
        0 => 5..7,
        1 => 12.min(end)..end,
        _ => 5..end,
    };
    packet[places].iter_mut().filter(|_| random.one_in(2)).for_each(u8::make_ascii_lowercase);
    mend_check_code(packet);
}

pub fn hex(bytes: &[u8]) -> String {
    bytes.iter().map(|byte| format!("{byte:02X}")).collect()
}

fn digits(random: &mut Random, count: usize) -> String {
    hex(&random.bytes(count / 2))
}

// The listed pairs but the erase, each with its largest value.
const ROWS: [(u16, u16); 8] =
    [(0x0010, 100), (0x0060, 17), (0x0093, 60), (0x0274, 100), (0x0275, 100), (0x1033, 100), (0x1034, 100), (0x104A, 2)];
const ERASE: u16 = 0xF001;

fn pair(random: &mut Random) -> (u16, u16) {
    match random.below(12) {
        0 => (random.next() as u16, 100),
        1 => (random.pick(&ROWS).0 ^ 1 << random.below(16), 100),
        2 => (ERASE, 1),
        _ => random.pick(&ROWS),
    }
}

fn value(random: &mut Random, largest: u16) -> u16 {
    match random.below(12) {
        0 => random.next() as u16,
        1 => largest + 1,
        2 => largest,
        3 => random.below(largest as usize + 1) as u16 | 0x0100 << random.below(8),
        4 => random.pick(&[0, 1, 2, 3, 4, 5, 16, 17, 18]),
        _ => random.below(largest as usize + 1) as u16,
    }
}

fn mode(random: &mut Random) -> u16 {
    match random.below(12) {
        0 => random.next() as u16,
        1 => random.below(7) as u16,
        2 => random.pick(&[1, 4]) << 8 | random.pick(&[0, 1, 4]),
        3..=5 => 4,
        _ => 1,
    }
}

// Mostly within the ranges, at their edges more often than elsewhere, and with the day's own weekday; now and then one field outside.
fn date(random: &mut Random) -> [u8; 7] {
    let ranges = [(0, 99), (1, 12), (1, 31), (0, 6), (0, 23), (0, 59), (0, 0)];
    let mut date = ranges.map(|(first, last)| match random.below(60) {
        0 => random.byte(),
        1 => last as u8 + 1,
        2 => (first as u8).wrapping_sub(1),
        3..=10 => first as u8,
        11..=18 => last as u8,
        _ => random.from_to(first, last) as u8,
    });
    if !random.one_in(10) {
        date[3] = weekday_of(date[0], date[1], date[2]).unwrap_or(date[3]);
    }
    date
}

fn tag(random: &mut Random) -> String {
    let count = match random.below(8) {
        0 => random.from_to(15, 17),
        1 => random.from_to(0, 29),
        _ => random.from_to(0, 16),
    };
    let mut text = digits(random, 2 * count);
    if random.one_in(20) {
        text.pop();
    }
    text
}

// A program's number, mostly one that there is.
fn program(random: &mut Random) -> u8 {
    match random.below(20) {
        0 => random.byte(),
        1 => 7,
        2 => 6,
        _ => random.below(PROGRAMS) as u8,
    }
}

// The sixteen numbers of a schedule write, mostly good; now and then one or two of them outside, at the edges more often than elsewhere.
fn program_numbers(random: &mut Random) -> [u8; 16] {
    let ([on_hour, on_minute], [off_hour, off_minute]) = (time(random), time(random));
    let (input, week, flags) = (random.pick(&[0, 1, 3, 17]), random.byte() & 0x7F, random.byte() & 7);
    let mut numbers = [0; 16];
    numbers[..8].copy_from_slice(&[program(random), on_hour, on_minute, off_hour, off_minute, input, week, flags]);
    let wrong = if random.one_in(2) { 0 } else { random.below(3) };
    for _ in 0..wrong {
        let place = random.below(16);
        numbers[place] = match place {
            1 | 3 => random.pick(&[23, 24, 25, 31, 255]),
            2 | 4 => random.pick(&[0, 59, 60, 61, 255]),
            5 => random.pick(&[2, 4, 16, 18]),
            6 => random.byte() | 0x80,
            7 => random.pick(&[8, 15, 255]),
            _ => random.pick(&[1, 7, 255]),
        };
    }
    numbers
}

fn schedule_request(random: &mut Random) -> String {
    match random.below(4) {
        0 => format!("C221{:02X}", program(random)),
        1 => format!("C215{:02X}{:02X}", program(random), if random.one_in(8) { random.byte() } else { random.byte() & 1 }),
        _ => format!("C222{}", hex(&program_numbers(random))),
    }
}

// Type and text of a request that a board knows; an erase only where asked for.
fn request(random: &mut Random, erases: bool) -> (u8, String) {
    let (pair, largest) = pair(random);
    match random.below(30) {
        0 if erases => (b'E', "F0010001".into()),
        0..=4 => (b'C', format!("{pair:04X}")),
        5..=11 if pair == ERASE => (b'E', format!("{pair:04X}{:04X}", random.pick(&[0, 2, 3, 0x0101, 0x1001, 0xFFFF]))),
        5..=11 => (b'E', format!("{pair:04X}{:04X}", value(random, largest))),
        12 => (b'A', "01D6".into()),
        13 | 14 => (b'A', format!("C203D6{:04X}", mode(random))),
        15 => (b'A', "C211".into()),
        16 | 17 => (b'A', format!("C212{}", hex(&date(random)))),
        18 => (b'A', "C216".into()),
        19 => (b'A', "C217".into()),
        20 => (b'A', "F010".into()),
        21 => (b'A', "F012".into()),
        22 | 23 => (b'A', format!("F011{}", tag(random))),
        _ => (b'A', schedule_request(random)),
    }
}

// Makes a text into one that is nearly a request: another type, a digit more or less, a letter in small, which spoils a name alone, another byte.
fn nearly(random: &mut Random, (kind, text): (u8, String)) -> (u8, Vec<u8>) {
    let mut text = text.into_bytes();
    let place = random.below(text.len());
    match random.below(6) {
        0 => return (random.pick(b"ACE"), text),
        1 => text.push(odd_byte(random)),
        2 => drop(text.remove(place)),
        3 => text[place].make_ascii_lowercase(),
        4 => text[place] = odd_byte(random),
        _ => text = digits(random, 2 * random.0 as usize % 64).into_bytes(),
    }
    (kind, text)
}

fn destination(random: &mut Random, own: u8) -> u8 {
    match random.below(20) {
        0 => random.byte(),
        1 => address(random.from_to(1, 8) as u8),
        2 => random.pick(b"0@I"),
        3..=6 => ALL,
        _ => address(own),
    }
}

// A byte that packets have in some place, or any byte.
fn odd_byte(random: &mut Random) -> u8 {
    if random.one_in(2) {
        random.byte()
    } else {
        random.pick(b"\x01\x02\x03\x0D*0123456789ABCDEFGHabcdefI@/:")
    }
}

fn damage(random: &mut Random, packet: &mut Vec<u8>) {
    let end = if random.one_in(2) { packet.len() } else { 8 }.min(packet.len());
    let (place, other) = (random.below(end), random.below(end));
    match random.below(8) {
        0 | 1 => packet[place] = odd_byte(random),
        2 => packet[place] ^= 1 << random.below(8),
        3 => packet.insert(place, odd_byte(random)),
        4 => drop(packet.remove(place)),
        5 => packet.swap(place, other),
        6 => packet[place] = packet[place].wrapping_add(random.pick(&[1, 255, 16])),
        _ => packet[place] = packet[other],
    }
    if random.one_in(3) {
        mend_length(packet);
    }
    if random.one_in(2) {
        mend_check_code(packet);
    }
}

// Bytes for the line: mostly a good packet, then one in small letters, one that is nearly a request, one that is damaged, or junk. A good
// packet is an erase only where asked for.
pub fn line(random: &mut Random, own: u8, erases: bool) -> Vec<u8> {
    let destination = destination(random, own);
    let good = request(random, erases);
    match random.below(40) {
        0..=20 => packet(destination, good.0, good.1.as_bytes()),
        21..=27 => {
            let mut packet = packet(destination, good.0, good.1.as_bytes());
            respell(random, &mut packet);
            packet
        }
        28..=31 => {
            let (kind, text) = nearly(random, good);
            packet(destination, kind, &text)
        }
        32..=36 => {
            let mut packet = packet(destination, good.0, good.1.as_bytes());
            damage(random, &mut packet);
            packet
        }
        37..=38 => {
            let count = random.below(72);
            let text = random.bytes(count);
            packet(destination, random.pick(b"ACE"), &text)
        }
        _ => {
            let count = random.below(30);
            (0..count).map(|_| odd_byte(random)).collect()
        }
    }
}
