// Inputs from a fixed seed: requests in and out of range, replies whole, near and damaged.
use crate::plain::{hex, mend_check_code, mend_length, packet, weekday_of, Request, ALL};

// The splitmix64 generator.
pub struct Random(pub u64);

impl Random {
    pub fn next(&mut self) -> u64 {
        self.0 = self.0.wrapping_add(0x9E37_79B9_7F4A_7C15);
        let z = (self.0 ^ self.0 >> 30).wrapping_mul(0xBF58_476D_1CE4_E5B9);
        let z = (z ^ z >> 27).wrapping_mul(0x94D0_49BB_1331_11EB);
        z ^ z >> 31
    }

    pub fn below(&mut self, end: usize) -> usize {
        (self.next() % end as u64) as usize
    }

    pub fn from_to(&mut self, first: usize, last: usize) -> usize {
        first + self.below(last - first + 1)
    }

    pub fn one_in(&mut self, n: usize) -> bool {
        self.below(n) == 0
    }

    pub fn byte(&mut self) -> u8 {
        self.next() as u8
    }

    pub fn bytes(&mut self, count: usize) -> Vec<u8> {
        (0..count).map(|_| self.byte()).collect()
    }

    fn pick<T: Copy>(&mut self, from: &[T]) -> T {
        from[self.below(from.len())]
    }
}

pub fn destination(random: &mut Random) -> u16 {
    match random.below(12) {
        0..=5 => random.from_to(1, 8) as u16,
        6..=8 => ALL,
        9 => random.below(301) as u16,
        10 => random.pick(&[0, 9, 0x2A, 0x30, 0x41, 0x48, 255, 257, 264, 512, 0x0101, 0x2A00, 0x8001, 0xFF01, 0xFFFF]),
        _ => random.next() as u16,
    }
}

pub fn out_room(random: &mut Random) -> usize {
    if random.one_in(8) {
        random.below(81)
    } else {
        random.from_to(64, 80)
    }
}

fn mode(random: &mut Random) -> u16 {
    match random.below(8) {
        0 => random.next() as u16,
        1 => random.below(7) as u16,
        2 => random.pick(&[1, 4]) << 8 | random.pick(&[0, 1, 4]),
        _ => random.pick(&[1, 4]),
    }
}

// Mostly within the ranges, at their edges more often than elsewhere, and with the day's own weekday; now and then one field outside.
fn date(random: &mut Random) -> [u8; 7] {
    let ranges = [(0, 99), (1, 12), (1, 31), (0, 6), (0, 23), (0, 59), (0, 0)];
    let mut date = ranges.map(|(first, last)| match random.below(40) {
        0 => random.byte(),
        1 => last as u8 + 1,
        2 => (first as u8).wrapping_sub(1),
        3..=8 => first as u8,
        9..=14 => last as u8,
        _ => random.from_to(first, last) as u8,
    });
    if !random.one_in(10) {
        date[3] = weekday_of(date[0], date[1], date[2]).unwrap_or(date[3]);
    }
    date
}

fn tag(random: &mut Random) -> Vec<u8> {
    let count = match random.below(64) {
        0 => random.from_to(17, 80),
        1 => random.from_to(250, 275),
        2 => 512 + random.below(20),
        3 => random.pick(&[65536, 65537, 65552]),
        4..=10 => random.from_to(15, 18),
        _ => random.from_to(0, 16),
    };
    random.bytes(count)
}

// A program's number, mostly one that there is.
fn program(random: &mut Random) -> u8 {
    match random.below(12) {
        0 => random.byte(),
        1 => 7,
        2 => 6,
        _ => random.below(7) as u8,
    }
}

// A time of day, at the edges more often than elsewhere, or none.
fn time(random: &mut Random) -> [u8; 2] {
    match random.below(6) {
        0 => [24, 60],
        1 => [23, 59],
        2 => [0, 0],
        _ => [random.below(24) as u8, random.below(60) as u8],
    }
}

// The eight numbers of a program, mostly good; now and then one or two outside, at the edges more often than elsewhere.
fn program_numbers(random: &mut Random) -> [u8; 8] {
    let ([on_hour, on_minute], [off_hour, off_minute]) = (time(random), time(random));
    let (input, week, flags) = (random.pick(&[0, 1, 3, 17]), random.byte() & 0x7F, random.byte() & 7);
    let mut numbers = [program(random), on_hour, on_minute, off_hour, off_minute, input, week, flags];
    let wrong = if random.one_in(2) { 0 } else { random.below(3) };
    for _ in 0..wrong {
        let place = random.below(8);
        numbers[place] = match place {
            1 | 3 => random.pick(&[23, 24, 25, 31, 255]),
            2 | 4 => random.pick(&[0, 59, 60, 61, 255]),
            5 => random.pick(&[2, 4, 16, 18]),
            6 => random.byte() | 0x80,
            7 => random.pick(&[8, 15, 255]),
            _ => random.byte(),
        };
    }
    numbers
}

pub const REQUESTS: usize = 14;

pub fn request(random: &mut Random, which: usize) -> Request {
    let (page, code) = (random.byte(), random.byte());
    match which {
        0 => Request::Get { page, code },
        1 => Request::Set { page, code, value: random.next() as u16 },
        2 => Request::PowerRead,
        3 => Request::PowerControl { mode: mode(random) },
        4 => Request::DateRead,
        5 => Request::DateWrite { date: date(random) },
        6 => Request::SerialRead,
        7 => Request::ModelRead,
        8 => Request::TagRead,
        9 => Request::FormerTagRead,
        10 => Request::TagWrite { tag: tag(random) },
        11 => Request::ScheduleRead { program: program(random) },
        12 => Request::ScheduleWrite { numbers: program_numbers(random) },
        _ => {
            let enable = if random.one_in(8) { random.byte() } else { random.byte() & 1 };
            Request::ScheduleEnable { program: program(random), enable }
        }
    }
}

// 00 or 01, and where `near` now and then something close to them.
fn flag(random: &mut Random, near: bool) -> String {
    let others = ["02", "10", "11", "0A", "FF", "A0", "O0", "0o", " 0", "1"];
    let good = ["00", "01"];
    if near && random.one_in(6) { random.pick(&others) } else { random.pick(&good) }.into()
}

fn shown_mode(random: &mut Random, near: bool) -> u16 {
    if near && random.one_in(4) {
        random.below(9) as u16
    } else {
        random.pick(&[1, 2, 4])
    }
}

fn digits(random: &mut Random, count: usize) -> String {
    hex(&random.bytes(count / 2))
}

// Two digits a byte; where `near` sometimes more than 16 bytes or an odd count of digits.
fn item(random: &mut Random, near: bool) -> String {
    let count = if near && random.one_in(4) { random.from_to(15, 20) } else { random.from_to(0, 16) };
    let mut text = digits(random, 2 * count);
    if near && random.one_in(8) {
        text.pop();
    }
    text
}

// The digits of a program's sixteen numbers; where `near` sometimes one digit or number more or fewer.
fn program_digits(random: &mut Random, near: bool) -> String {
    let count = if near && random.one_in(4) { random.from_to(15, 17) } else { 16 };
    let mut text = digits(random, 2 * count);
    if near && random.one_in(8) {
        text.pop();
    }
    text
}

pub const REPLIES: usize = 15;

// Type and text of a reply; where `near` a field may hold what it must not.
fn reply_text(random: &mut Random, which: usize, near: bool) -> (u8, String) {
    let first = flag(random, near);
    match which {
        0 => (b'B', "BE".into()),
        1 | 2 => {
            let (page_code, operation, rest) = (digits(random, 4), flag(random, near), digits(random, 8));
            (random.pick(if near { b"BDF" } else { &b"DF"[which - 1..which] }), first + &page_code + &operation + &rest)
        }
        3 => (b'B', format!("02{first}D6000004{:04X}", shown_mode(random, near))),
        4 => (b'B', format!("{first}C203D6{}", digits(random, 4))),
        5 => (b'B', format!("C311{}", digits(random, 14))),
        6 => (b'B', format!("C312{first}{}", digits(random, 14))),
        7 => (b'B', format!("C316{}", item(random, near))),
        8 => (b'B', format!("C317{}", item(random, near))),
        9 => (b'B', format!("F110{}", item(random, near))),
        10 => (b'B', format!("F112{}", item(random, near))),
        11 => (b'B', format!("F111{first}{}", item(random, near))),
        12 => (b'B', format!("C321{}", program_digits(random, near))),
        13 => (b'B', format!("C322{first}{}", program_digits(random, near))),
        _ => {
            let count = if near && random.one_in(4) { random.from_to(1, 3) } else { 2 };
            (b'B', format!("C315{first}{}", digits(random, 2 * count)))
        }
    }
}

fn reply(random: &mut Random, near: bool) -> Vec<u8> {
    let which = random.below(REPLIES);
    let (kind, text) = reply_text(random, which, near);
    let kind = if near && random.one_in(10) { random.pick(b"BDF") } else { kind };
    packet(b'0', random.from_to(0x41, 0x48) as u8, kind, text.as_bytes())
}

// Small letters for some capitals: in the length, behind a name of four bytes, or anywhere behind the type. With the check code of these bytes.
fn respell(random: &mut Random, packet: &mut [u8]) {
    let end = packet.len() - 3;
    let places = match random.below(3) {
        0 => 5..7,
        1 => 12.min(end)..end,
        _ => 5..end,
    };
    packet[places].iter_mut().filter(|_| random.one_in(2)).for_each(u8::make_ascii_lowercase);
    mend_check_code(packet);
}

// A byte that packets have in some place, or any byte.
fn odd_byte(random: &mut Random) -> u8 {
    if random.one_in(2) {
        random.byte()
    } else {
        random.pick(b"\x01\x02\x03\x0D*0123456789ABCDEFGHabcdefI@/:")
    }
}

fn damage_once(random: &mut Random, packet: &mut Vec<u8>, end: usize) {
    let end = end.min(packet.len());
    if end == 0 {
        return packet.push(odd_byte(random));
    }
    let (place, other) = (random.below(end), random.below(end));
    match random.below(8) {
        0 | 1 => packet[place] = odd_byte(random),
        2 => packet[place] ^= 1 << random.below(8),
        3 => packet.insert(place, odd_byte(random)),
        4 => drop(packet.remove(place)),
        5 => packet.swap(place, other),
        6 => packet[place] = packet[place].wrapping_add(random.pick(&[1, 255, 16])),
        _ => packet[place] = packet[other],
    }
}

fn cut_or_extend(random: &mut Random, packet: &mut Vec<u8>) {
    match random.below(4) {
        0 => packet.truncate(random.below(packet.len() + 1)),
        1 => packet.extend(random.bytes(1)),
        2 => {
            let more = random.below(60);
            packet.extend(random.bytes(more))
        }
        _ => {
            let more = random.below(300);
            packet.extend(random.bytes(more))
        }
    }
}

// Gives damaged bytes back what a packet needs, so that later checks are reached.
fn mend(random: &mut Random, packet: &mut [u8]) {
    if random.one_in(2) {
        mend_length(packet);
    }
    if let Some(last) = packet.last_mut().filter(|_| !random.one_in(16)) {
        *last = 0x0D;
    }
    mend_check_code(packet);
}

fn damaged(random: &mut Random, end: usize) -> Vec<u8> {
    let near = random.one_in(2);
    let mut packet = reply(random, near);
    for _ in 0..random.from_to(1, 3) {
        damage_once(random, &mut packet, end);
    }
    if random.one_in(6) {
        cut_or_extend(random, &mut packet);
    }
    packet
}

// A good header around any text, of 0 to 75 bytes, so that lengths past 64 come up.
fn framed(random: &mut Random) -> Vec<u8> {
    let count = random.below(76);
    let text = if random.one_in(2) { random.bytes(count) } else { digits(random, count & !1).into_bytes() };
    packet(b'0', random.from_to(0x41, 0x48) as u8, random.pick(b"BDF"), &text)
}

pub fn reply_bytes(random: &mut Random) -> Vec<u8> {
    match random.below(16) {
        0..=2 => reply(random, false),
        3..=4 => {
            let mut packet = reply(random, false);
            respell(random, &mut packet);
            packet
        }
        5..=7 => reply(random, true),
        8..=9 => damaged(random, usize::MAX),
        10..=12 => {
            let mut packet = damaged(random, usize::MAX);
            mend(random, &mut packet);
            packet
        }
        13 => {
            let mut packet = damaged(random, 7);
            mend_check_code(&mut packet);
            packet
        }
        14 => framed(random),
        _ => {
            let count = random.below(90);
            random.bytes(count)
        }
    }
}
