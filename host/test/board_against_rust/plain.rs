// The board in plain Rust, written from document 01 ('Packet' to 'Erase') and document 02 (schedules, days, digits) by itself. It
// needs no standard library.

pub const STORE: usize = 128;
pub const ROOM: usize = 64;
pub const ALL: u8 = b'*';

// The marks of a store: without programs, with programs, and while an erase is pending.
pub const OLD: u8 = 0x00;
pub const MARK: u8 = 0x01;
pub const ERASING: u8 = 0xE7;

#[derive(Clone, Copy, Debug, PartialEq)]
pub enum Answer {
    Waiting,
    Silent,
    Begun,
    More,
    Ended,
    Refused(u8),
    Reply(usize),
}
use Answer::*;

// ---- packets

fn digit(byte: u8) -> Option<u16> {
    match byte {
        b'0'..=b'9' => Some(u16::from(byte - b'0')),
        b'A'..=b'F' => Some(u16::from(byte - b'A') + 10),
        b'a'..=b'f' => Some(u16::from(byte - b'a') + 10),
        _ => None,
    }
}

fn number(digits: &[u8]) -> Option<u16> {
    digits.iter().try_fold(0, |value, &byte| Some(value << 4 | digit(byte)?))
}

// The exclusive or of all bytes after SOH through ETX, where the packet ends with ETX.
pub fn check_code(through_etx: &[u8]) -> u8 {
    through_etx[1..].iter().fold(0, |code, byte| code ^ byte)
}

pub fn address(id: u8) -> u8 {
    0x40 + id
}

// A packet that is being written.
struct Writing {
    bytes: [u8; 80],
    len: usize,
}

impl Writing {
    fn reply(id: u8, kind: u8) -> Self {
        let mut writing = Writing { bytes: [0; 80], len: 0 };
        writing.raw(&[0x01, b'0', b'0', address(id), kind, 0, 0, 0x02]);
        writing
    }

    fn raw(&mut self, bytes: &[u8]) {
        self.bytes[self.len..self.len + bytes.len()].copy_from_slice(bytes);
        self.len += bytes.len();
    }

    fn digits(&mut self, value: u16, count: usize) {
        for place in (0..count).rev() {
            self.raw(&[b"0123456789ABCDEF"[usize::from(value >> (4 * place) & 15)]]);
        }
    }

    fn numbers(&mut self, bytes: &[u8]) {
        bytes.iter().for_each(|&byte| self.digits(byte.into(), 2));
    }

    // Puts ETX, length digits, check code and CR into their places and the packet into the lent buffer.
    fn send(mut self, lent: &mut [u8]) -> Answer {
        self.raw(&[0x03]);
        let end = self.len;
        self.len = 5;
        self.digits(end as u16 - 7, 2);
        self.len = end;
        self.raw(&[check_code(&self.bytes[..end]), 0x0D]);
        lent[..self.len].copy_from_slice(&self.bytes[..self.len]);
        Reply(self.len)
    }
}

// ---- the store

// A field's first bit, counted from the store's first, its width, and its first and last value.
type Field = (u32, u32, u8, u8);

const BACKLIGHT: Field = (8, 7, 0, 100);
const INPUT: Field = (15, 2, 0, 2);
const BALANCE: Field = (17, 6, 0, 60);
const PIP_H: Field = (23, 7, 0, 100);
const PIP_V: Field = (30, 7, 0, 100);
const AMBIENT_LOW: Field = (37, 7, 0, 100);
const AMBIENT_HIGH: Field = (44, 7, 0, 100);
const TILE: Field = (51, 2, 1, 2);
const POWER: Field = (53, 1, 0, 1);
const DATE: [Field; 6] = [(54, 7, 0, 99), (61, 4, 1, 12), (65, 5, 1, 31), (70, 3, 0, 6), (73, 5, 0, 23), (78, 6, 0, 59)];
const TAG: Field = (84, 5, 0, 16);
const FORMER: Field = (89, 5, 0, 16);

pub const FIELDS: [Field; 17] = [
    BACKLIGHT,
    INPUT,
    BALANCE,
    PIP_H,
    PIP_V,
    AMBIENT_LOW,
    AMBIENT_HIGH,
    TILE,
    POWER,
    DATE[0],
    DATE[1],
    DATE[2],
    DATE[3],
    DATE[4],
    DATE[5],
    TAG,
    FORMER,
];

const TAG_PLACE: usize = 12;
const FORMER_PLACE: usize = 28;
const TEXT: usize = 16;

// The first 16 bytes hold all fields.
fn word(store: &[u8]) -> u128 {
    u128::from_be_bytes(store[..16].try_into().unwrap())
}

fn field_of(word: u128, (place, width, ..): Field) -> u8 {
    (word >> (128 - place - width)) as u8 & ((1u16 << width) - 1) as u8
}

fn get(store: &[u8], field: Field) -> u8 {
    field_of(word(store), field)
}

pub fn put(store: &mut [u8], (place, width, ..): Field, value: u8) {
    let shift = 128 - place - width;
    let mask = ((1u128 << width) - 1) << shift;
    let changed = word(store) & !mask | u128::from(value) << shift;
    store[..16].copy_from_slice(&changed.to_be_bytes());
}

fn in_range(store: &[u8]) -> bool {
    let word = word(store);
    let good = |field: Field| (field.2..=field.3).contains(&field_of(word, field));
    let settings =
        good(BACKLIGHT) & good(INPUT) & good(BALANCE) & good(PIP_H) & good(PIP_V) & good(AMBIENT_LOW) & good(AMBIENT_HIGH);
    let date = good(DATE[0]) & good(DATE[1]) & good(DATE[2]) & good(DATE[3]) & good(DATE[4]) & good(DATE[5]);
    settings & good(TILE) & date & good(TAG) & good(FORMER)
}

// ---- the calendar

fn days_in(year: u8, month: u8) -> u8 {
    match month {
        2 => 28 + u8::from(year % 4 == 0),
        4 | 6 | 9 | 11 => 30,
        1..=12 => 31,
        _ => 0,
    }
}

// The weekday that falls on a day of 2000 to 2099, Sunday 0, counted from Saturday 1 January 2000.
pub fn weekday_of(year: u8, month: u8, day: u8) -> Option<u8> {
    if year > 99 || !(1..=days_in(year, month)).contains(&day) {
        return None;
    }
    let days_of = |year| (1..=12).map(|month| u32::from(days_in(year, month))).sum::<u32>();
    let years: u32 = (0..year).map(days_of).sum();
    let months: u32 = (1..month).map(|month| u32::from(days_in(year, month))).sum();
    Some(((6 + years + months + u32::from(day - 1)) % 7) as u8)
}

// ---- the programs

pub const PROGRAMS: usize = 7;
pub const PROGRAM_PLACE: usize = 44;
const PROGRAM: usize = 5;
pub const PROGRAMS_END: usize = PROGRAM_PLACE + PROGRAMS * PROGRAM;
const UNUSED_PROGRAM: [u8; PROGRAM] = [0xC7, 0x98, 0xF0, 0x00, 0x00];

// ON_HOUR, ON_MIN, OFF_HOUR, OFF_MIN, INPUT, WEEK and FL, most significant bit first; six spare bits stand behind them.
pub const PROGRAM_WIDTHS: [u32; 7] = [5, 6, 5, 6, 2, 7, 3];
const SPARE_BITS: u32 = 6;

// INPUT as it is sent, by what is stored of it.
const INPUTS: [u8; 4] = [0, 1, 3, 17];

// The store's bytes of a program.
fn program_bytes(program: usize) -> core::ops::Range<usize> {
    let first = PROGRAM_PLACE + PROGRAM * program;
    first..first + PROGRAM
}

fn program_word(store: &[u8], program: usize) -> u64 {
    store[program_bytes(program)].iter().fold(0, |word, &byte| word << 8 | u64::from(byte))
}

fn program_of(store: &[u8], program: usize) -> [u8; 7] {
    let mut left = program_word(store, program) >> SPARE_BITS;
    let mut fields = [0; 7];
    for (field, width) in fields.iter_mut().zip(PROGRAM_WIDTHS).rev() {
        *field = (left & ((1 << width) - 1)) as u8;
        left >>= width;
    }
    fields
}

// Puts the seven fields, and leaves the spare bits as they are.
pub fn put_program(store: &mut [u8], program: usize, fields: [u8; 7]) {
    let spare = program_word(store, program) & ((1 << SPARE_BITS) - 1);
    let packed = fields.iter().zip(PROGRAM_WIDTHS).fold(0, |word, (&field, width)| word << width | u64::from(field));
    let word = packed << SPARE_BITS | spare;
    store[program_bytes(program)].copy_from_slice(&word.to_be_bytes()[8 - PROGRAM..]);
}

// A time of day, or 24 and 60 together, which mean that there is none.
fn is_time(hour: u8, minute: u8) -> bool {
    (hour <= 23 && minute <= 59) || (hour, minute) == (24, 60)
}

// Two times of 11 bits each stand first in a program.
fn programs_in_range(store: &[u8]) -> bool {
    (0..PROGRAMS).all(|program| {
        let times = program_word(store, program) >> 18;
        [times >> 11, times].iter().all(|time| is_time((time >> 6 & 31) as u8, (time & 63) as u8))
    })
}

pub const UNUSED: [u8; STORE] = {
    let mut store = [0; STORE];
    let named = [MARK, 0x8C, 0x3C, 0xC9, 0x91, 0x4A, 0x0C, 0x00, 0x87];
    let mut place = 0;
    while place < named.len() {
        store[place] = named[place];
        place += 1;
    }
    place = PROGRAM_PLACE;
    while place < PROGRAMS_END {
        store[place] = UNUSED_PROGRAM[(place - PROGRAM_PLACE) % PROGRAM];
        place += 1;
    }
    store
};

// ---- the settings

enum Row {
    Plain(Field),
    Input,
    Tile,
    Erase,
}

// Operation type, max field and what is behind them.
fn row(page: u8, code: u8) -> Option<(u16, u16, Row)> {
    Some(match (page, code) {
        (0x00, 0x10) => (0, 100, Row::Plain(BACKLIGHT)),
        (0x00, 0x60) => (0, 17, Row::Input),
        (0x00, 0x93) => (0, 60, Row::Plain(BALANCE)),
        (0x02, 0x74) => (0, 100, Row::Plain(PIP_H)),
        (0x02, 0x75) => (0, 100, Row::Plain(PIP_V)),
        (0x10, 0x33) => (0, 100, Row::Plain(AMBIENT_LOW)),
        (0x10, 0x34) => (0, 100, Row::Plain(AMBIENT_HIGH)),
        (0x10, 0x4A) => (0, 2, Row::Tile),
        (0xF0, 0x01) => (1, 1, Row::Erase),
        _ => return None,
    })
}

fn current(store: &[u8], row: &Row) -> u16 {
    match *row {
        Row::Plain(field) => get(store, field).into(),
        Row::Input => [1, 3, 17, 0][usize::from(get(store, INPUT))],
        Row::Tile => get(store, TILE).into(),
        Row::Erase => 0,
    }
}

// The field and what it becomes, where the value is accepted.
fn accepted(row: &Row, value: u16) -> Option<(Field, u8)> {
    match *row {
        Row::Plain(field) => (value <= field.3.into()).then_some((field, value as u8)),
        Row::Input => match value {
            1 => Some((INPUT, 0)),
            3 => Some((INPUT, 1)),
            4 | 17 => Some((INPUT, 2)),
            _ => None,
        },
        Row::Tile => (1..=2).contains(&value).then_some((TILE, value as u8)),
        Row::Erase => None,
    }
}

// ---- the board

// A serial number or a model.
struct Text {
    bytes: [u8; TEXT],
    count: usize,
}

impl Text {
    fn of(given: &[u8]) -> Option<Text> {
        let mut bytes = [0; TEXT];
        bytes.get_mut(..given.len())?.copy_from_slice(given);
        Some(Text { bytes, count: given.len() })
    }

    fn bytes(&self) -> &[u8] {
        &self.bytes[..self.count]
    }
}

struct Erase {
    next: usize,
    owed: bool,
}

pub struct Board {
    id: u8,
    serial: Text,
    model: Text,
    held: [u8; 73],
    len: usize,
    size: usize, // of the packet, once its header was judged
    erase: Option<Erase>,
}

impl Board {
    // A start on a store without programs gives it unused ones.
    pub fn start(id: u8, serial: &[u8], model: &[u8], store: &mut [u8]) -> Result<Board, u8> {
        if store.len() != STORE || ![OLD, MARK, ERASING].contains(&store[0]) {
            return Err(11);
        }
        let (1..=8, Some(serial), Some(model)) = (id, Text::of(serial), Text::of(model)) else {
            return Err(12);
        };
        if store[0] != ERASING && !in_range(store) || store[0] == MARK && !programs_in_range(store) {
            return Err(12);
        }
        if store[0] == OLD {
            store[PROGRAM_PLACE..PROGRAMS_END].copy_from_slice(&UNUSED[PROGRAM_PLACE..PROGRAMS_END]);
            store[0] = MARK;
        }
        let erase = (store[0] == ERASING).then_some(Erase { next: 1, owed: false });
        Ok(Board { id, serial, model, held: [0; 73], len: 0, size: 0, erase })
    }

    // The identity and what is held are sound by how they are made; the store is lent and may be anything.
    fn is_sound_on(&self, store: &[u8]) -> bool {
        store.len() == STORE
            && match self.erase {
                None => store[0] == MARK && in_range(store) && programs_in_range(store),
                Some(Erase { next, .. }) => store[0] == ERASING && store[1..next] == UNUSED[1..next],
            }
    }

    pub fn is_erasing(&self) -> bool {
        self.erase.is_some()
    }

    pub fn gap(&mut self, store: &[u8]) -> Answer {
        if !self.is_sound_on(store) {
            return Refused(12);
        }
        if self.is_erasing() {
            return Refused(9);
        }
        self.len = 0;
        Waiting
    }

    pub fn step(&mut self, store: &mut [u8], lent: &mut [u8]) -> Answer {
        if lent.len() < ROOM {
            return Refused(10);
        }
        if !self.is_sound_on(store) {
            return Refused(12);
        }
        let Some(erase) = &mut self.erase else {
            return Refused(13);
        };
        if erase.next < STORE {
            store[erase.next] = UNUSED[erase.next];
            erase.next += 1;
            return More;
        }
        store[0] = MARK;
        let owed = erase.owed;
        self.erase = None;
        if owed {
            self.shown(b'F', 0, [0xF0, 0x01], 1, 1, 1).send(lent)
        } else {
            Ended
        }
    }

    pub fn byte(&mut self, store: &mut [u8], byte: u8, lent: &mut [u8]) -> Answer {
        if lent.len() < ROOM {
            return Refused(10);
        }
        if !self.is_sound_on(store) {
            return Refused(12);
        }
        if self.is_erasing() {
            return Refused(9);
        }
        if self.len == 0 && byte != 0x01 {
            return Refused(1);
        }
        self.held[self.len] = byte;
        self.len += 1;
        if self.len == 7 {
            match judged_header(&self.held[..7]) {
                Ok(size) => self.size = size,
                Err(refusal) => return self.refuse(refusal),
            }
        }
        if self.len < 7 || self.len < self.size {
            return Waiting;
        }
        self.whole(store, lent)
    }

    fn refuse(&mut self, refusal: u8) -> Answer {
        self.len = 0;
        Refused(refusal)
    }

    fn whole(&mut self, store: &mut [u8], lent: &mut [u8]) -> Answer {
        let held = self.held;
        let packet = &held[..self.size];
        let (message, end) = packet[7..].split_at(self.size - 9);
        self.len = 0;
        if end[1] != 0x0D {
            return Refused(5);
        }
        if end[0] != check_code(&packet[..self.size - 2]) {
            return Refused(6);
        }
        if message[0] != 0x02 || message[message.len() - 1] != 0x03 {
            return Refused(7);
        }
        let own = packet[2] == address(self.id);
        if !own && packet[2] != ALL {
            return Refused(8);
        }
        self.act(packet[4], &message[1..message.len() - 1], own, store, lent)
    }

    fn act(&mut self, kind: u8, text: &[u8], own: bool, store: &mut [u8], lent: &mut [u8]) -> Answer {
        let writing = match kind {
            b'C' => self.get(text, store),
            b'E' if text.eq_ignore_ascii_case(b"F0010001") => {
                store[0] = ERASING;
                self.erase = Some(Erase { next: 1, owed: own });
                return Begun;
            }
            b'E' => self.set(text, store),
            _ => self.command(text, store),
        };
        match writing {
            _ if !own => Silent,
            Some(writing) => writing.send(lent),
            None => {
                let mut null = self.reply();
                null.raw(b"BE");
                null.send(lent)
            }
        }
    }

    fn reply(&self) -> Writing {
        Writing::reply(self.id, b'B')
    }

    fn shown(&self, kind: u8, result: u16, pair: [u8; 2], operation: u16, largest: u16, value: u16) -> Writing {
        let mut shown = Writing::reply(self.id, kind);
        shown.digits(result, 2);
        shown.numbers(&pair);
        shown.digits(operation, 2);
        shown.digits(largest, 4);
        shown.digits(value, 4);
        shown
    }

    fn get(&self, text: &[u8], store: &[u8]) -> Option<Writing> {
        let pair = number(text).filter(|_| text.len() == 4)?.to_be_bytes();
        Some(match row(pair[0], pair[1]) {
            Some((operation, largest, row)) => self.shown(b'D', 0, pair, operation, largest, current(store, &row)),
            None => self.shown(b'D', 1, pair, 0, 0, 0),
        })
    }

    fn set(&self, text: &[u8], store: &mut [u8]) -> Option<Writing> {
        if text.len() != 8 {
            return None;
        }
        let (pair, value) = (number(&text[..4])?.to_be_bytes(), number(&text[4..])?);
        let Some((operation, largest, row)) = row(pair[0], pair[1]) else {
            return Some(self.shown(b'F', 1, pair, 0, 0, value));
        };
        let is_on = get(store, POWER) == 1;
        let result = match accepted(&row, value).filter(|_| is_on) {
            Some((field, kept)) => {
                put(store, field, kept);
                0
            }
            None => 1,
        };
        Some(self.shown(b'F', result, pair, operation, largest, value))
    }

    fn command(&self, text: &[u8], store: &mut [u8]) -> Option<Writing> {
        match text {
            b"01D6" => Some(self.power_read(store)),
            b"C211" => Some(self.date_read(store)),
            b"C216" => Some(self.item(b"C316", self.serial.bytes())),
            b"C217" => Some(self.item(b"C317", self.model.bytes())),
            b"F010" => Some(self.item(b"F110", tag(store, TAG, TAG_PLACE))),
            b"F012" => Some(self.item(b"F112", tag(store, FORMER, FORMER_PLACE))),
            [b'C', b'2', b'0', b'3', b'D', b'6', mode @ ..] => self.power_control(mode, store),
            [b'C', b'2', b'1', b'2', date @ ..] => self.date_write(date, store),
            [b'F', b'0', b'1', b'1', tag @ ..] => self.tag_write(tag, store),
            [b'C', b'2', b'2', b'1', program @ ..] => self.schedule_read(program, store),
            [b'C', b'2', b'2', b'2', numbers @ ..] => self.schedule_write(numbers, store),
            [b'C', b'2', b'1', b'5', numbers @ ..] => self.schedule_enable(numbers, store),
            _ => None,
        }
    }

    fn power_read(&self, store: &[u8]) -> Writing {
        let mut reply = self.reply();
        reply.raw(b"0200D6000004");
        reply.digits(if get(store, POWER) == 1 { 1 } else { 4 }, 4);
        reply
    }

    fn power_control(&self, digits: &[u8], store: &mut [u8]) -> Option<Writing> {
        let mode = number(digits).filter(|_| digits.len() == 4)?;
        let power = match mode {
            1 => Some(1),
            4 => Some(0),
            _ => None,
        };
        if let Some(power) = power {
            put(store, POWER, power);
        }
        let mut reply = self.reply();
        reply.digits(power.is_none().into(), 2);
        reply.raw(b"C203D6");
        reply.digits(mode, 4);
        Some(reply)
    }

    fn date_read(&self, store: &[u8]) -> Writing {
        let mut reply = self.reply();
        reply.raw(b"C311");
        reply.numbers(&DATE.map(|field| get(store, field)));
        reply.digits(0, 2);
        reply
    }

    fn date_write(&self, digits: &[u8], store: &mut [u8]) -> Option<Writing> {
        let (date, count) = bytes_in(digits)?;
        if count != 7 {
            return None;
        }
        let falls = weekday_of(date[0], date[1], date[2]) == Some(date[3]);
        let is_good = falls && date[4] <= 23 && date[5] <= 59 && date[6] == 0;
        if is_good {
            DATE.iter().zip(date).for_each(|(&field, value)| put(store, field, value));
        }
        let mut reply = self.reply();
        reply.raw(b"C312");
        reply.digits((!is_good).into(), 2);
        reply.numbers(&date[..7]);
        Some(reply)
    }

    fn item(&self, name: &[u8], bytes: &[u8]) -> Writing {
        let mut reply = self.reply();
        reply.raw(name);
        reply.numbers(bytes);
        reply
    }

    fn tag_write(&self, digits: &[u8], store: &mut [u8]) -> Option<Writing> {
        let (tag, count) = bytes_in(digits)?;
        store.copy_within(TAG_PLACE..TAG_PLACE + TEXT, FORMER_PLACE);
        put(store, FORMER, get(store, TAG));
        put(store, TAG, count as u8);
        store[TAG_PLACE..TAG_PLACE + TEXT].copy_from_slice(&tag);
        let mut reply = self.reply();
        reply.raw(b"F11100");
        reply.numbers(&tag[..count]);
        Some(reply)
    }
}

// The schedule.
impl Board {
    fn schedule_read(&self, digits: &[u8], store: &[u8]) -> Option<Writing> {
        let (numbers, 1) = bytes_in(digits)? else {
            return None;
        };
        let program = usize::from(numbers[0]);
        if program >= PROGRAMS {
            return None;
        }
        let [on_hour, on_minute, off_hour, off_minute, input, week, flags] = program_of(store, program);
        let mut reply = self.reply();
        reply.raw(b"C321");
        reply.numbers(&[numbers[0], on_hour, on_minute, off_hour, off_minute, INPUTS[usize::from(input)], week, flags]);
        reply.numbers(&[0; 8]);
        Some(reply)
    }

    fn schedule_write(&self, digits: &[u8], store: &mut [u8]) -> Option<Writing> {
        let (numbers, 16) = bytes_in(digits)? else {
            return None;
        };
        let program = accepted_program(&numbers);
        if let Some(fields) = program {
            put_program(store, numbers[0].into(), fields);
        }
        let mut reply = self.reply();
        reply.raw(b"C322");
        reply.digits(program.is_none().into(), 2);
        reply.numbers(&numbers);
        Some(reply)
    }

    fn schedule_enable(&self, digits: &[u8], store: &mut [u8]) -> Option<Writing> {
        let (numbers, 2) = bytes_in(digits)? else {
            return None;
        };
        let (program, enable) = (usize::from(numbers[0]), numbers[1]);
        let is_good = program < PROGRAMS && enable <= 1;
        if is_good {
            let mut fields = program_of(store, program);
            fields[6] = fields[6] & 0b011 | enable << 2;
            put_program(store, program, fields);
        }
        let mut reply = self.reply();
        reply.raw(b"C315");
        reply.digits((!is_good).into(), 2);
        reply.numbers(&numbers[..2]);
        Some(reply)
    }
}

// What is stored of sixteen numbers: program, its seven fields as sent and eight that are reserved.
fn accepted_program(numbers: &[u8; TEXT]) -> Option<[u8; 7]> {
    let [program, on_hour, on_minute, off_hour, off_minute, input, week, flags, reserved @ ..] = *numbers;
    let kept = INPUTS.iter().position(|&sent| sent == input)?;
    let times = is_time(on_hour, on_minute) && is_time(off_hour, off_minute);
    let is_good = usize::from(program) < PROGRAMS && times && week <= 0x7F && flags <= 7 && reserved == [0; 8];
    is_good.then_some([on_hour, on_minute, off_hour, off_minute, kept as u8, week, flags])
}

// The packet's size, or refusal 2, 3 or 4.
fn judged_header(header: &[u8]) -> Result<usize, u8> {
    if header[1] != b'0' || header[3] != b'0' {
        return Err(2);
    }
    if ![b'A', b'C', b'E'].contains(&header[4]) {
        return Err(3);
    }
    let l = number(&header[5..7]).filter(|l| (4..=64).contains(l)).ok_or(4)?;
    Ok(usize::from(l) + 9)
}

fn tag(store: &[u8], length: Field, place: usize) -> &[u8] {
    &store[place..place + usize::from(get(store, length))]
}

// Two digits a byte, 0 to 16 bytes, zeros behind.
fn bytes_in(digits: &[u8]) -> Option<([u8; TEXT], usize)> {
    let mut bytes = [0; TEXT];
    let count = digits.len() / 2;
    if digits.len() % 2 != 0 || count > TEXT {
        return None;
    }
    for (byte, pair) in bytes.iter_mut().zip(digits.chunks(2)) {
        *byte = number(pair)? as u8;
    }
    Some((bytes, count))
}
