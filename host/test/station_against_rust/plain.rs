// Encoder and reader in plain Rust, written from document 01 ('Packet', 'What a good packet does', 'Station') and document 02
// (schedules, days, digits) by itself.

use std::sync::OnceLock;

pub const ALL: u16 = 256;

#[derive(Debug)]
pub enum Request {
    Get { page: u8, code: u8 },
    Set { page: u8, code: u8, value: u16 },
    PowerRead,
    PowerControl { mode: u16 },
    DateRead,
    DateWrite { date: [u8; 7] },
    SerialRead,
    ModelRead,
    TagRead,
    FormerTagRead,
    TagWrite { tag: Vec<u8> },
    ScheduleRead { program: u8 },
    ScheduleWrite { numbers: [u8; 8] },
    ScheduleEnable { program: u8, enable: u8 },
}

#[derive(Debug)]
pub struct Reply {
    pub kind: u8,
    pub numbers: Vec<u16>,
    pub bytes: Vec<u8>,
}

// The exclusive or of all bytes after SOH through ETX, where the packet ends with ETX.
fn check_code(through_etx: &[u8]) -> u8 {
    through_etx.iter().skip(1).fold(0, |code, byte| code ^ byte)
}

// A packet around a text; L counts STX to ETX. The text may be too long for document 01.
pub fn packet(destination: u8, source: u8, kind: u8, text: &[u8]) -> Vec<u8> {
    let l = text.len() + 2;
    let mut packet = vec![0x01, b'0', destination, source, kind];
    packet.extend(format!("{:02X}", l & 0xFF).bytes());
    packet.push(0x02);
    packet.extend(text);
    packet.push(0x03);
    packet.push(check_code(&packet));
    packet.push(0x0D);
    packet
}

// Gives any bytes the check code that they should have.
pub fn mend_check_code(packet: &mut [u8]) {
    if let Some(place) = packet.len().checked_sub(2) {
        packet[place] = check_code(&packet[..place]);
    }
}

// Gives any bytes the length digits that they should have.
pub fn mend_length(packet: &mut [u8]) {
    if packet.len() >= 9 {
        let digits = format!("{:02X}", (packet.len() - 9) & 0xFF);
        packet[5..7].copy_from_slice(digits.as_bytes());
    }
}

pub fn hex(bytes: &[u8]) -> String {
    bytes.iter().map(|byte| format!("{byte:02X}")).collect()
}

fn address(dest: u16) -> Option<u8> {
    match dest {
        1..=8 => Some(0x40 + dest as u8),
        ALL => Some(b'*'),
        _ => None,
    }
}

// Year, month, day and weekday of each day from Saturday 1 January 2000 to the last of 2099, one after another.
fn century() -> Vec<[u8; 4]> {
    let mut days = Vec::new();
    for year in 0..100 {
        let february = if year % 4 == 0 { 29 } else { 28 };
        for (month, count) in (1..).zip([31, february, 31, 30, 31, 30, 31, 31, 30, 31, 30, 31]) {
            for day in 1..=count {
                let weekday = days.last().map_or(6, |before: &[u8; 4]| (before[3] + 1) % 7);
                days.push([year, month, day, weekday]);
            }
        }
    }
    days
}

// The weekday that falls on a day that there is.
pub fn weekday_of(year: u8, month: u8, day: u8) -> Option<u8> {
    static DAYS: OnceLock<Vec<[u8; 4]>> = OnceLock::new();
    let days = DAYS.get_or_init(century);
    let found = days.binary_search_by_key(&[year, month, day], |&[year, month, day, _]| [year, month, day]);
    found.ok().map(|place| days[place][3])
}

fn date_is_good(&[year, month, day, weekday, hour, minute, daylight]: &[u8; 7]) -> bool {
    weekday_of(year, month, day) == Some(weekday) && hour <= 23 && minute <= 59 && daylight == 0
}

// A time of day, or 24 and 60 together, which mean that there is none.
fn is_time(hour: u8, minute: u8) -> bool {
    (hour <= 23 && minute <= 59) || (hour, minute) == (24, 60)
}

// Program, ON_HOUR, ON_MIN, OFF_HOUR, OFF_MIN, INPUT, WEEK, FL.
fn program_is_good(&[program, on_hour, on_minute, off_hour, off_minute, input, week, flags]: &[u8; 8]) -> bool {
    let times = is_time(on_hour, on_minute) && is_time(off_hour, off_minute);
    program <= 6 && times && [0, 1, 3, 17].contains(&input) && week <= 0x7F && flags <= 7
}

fn is_in_range(request: &Request) -> bool {
    match request {
        Request::PowerControl { mode } => [1, 4].contains(mode),
        Request::DateWrite { date } => date_is_good(date),
        Request::TagWrite { tag } => tag.len() <= 16,
        Request::ScheduleRead { program } => *program <= 6,
        Request::ScheduleWrite { numbers } => program_is_good(numbers),
        Request::ScheduleEnable { program, enable } => *program <= 6 && *enable <= 1,
        _ => true,
    }
}

fn type_and_text(request: &Request) -> (u8, String) {
    match request {
        Request::Get { page, code } => (b'C', format!("{page:02X}{code:02X}")),
        Request::Set { page, code, value } => (b'E', format!("{page:02X}{code:02X}{value:04X}")),
        Request::PowerRead => (b'A', "01D6".into()),
        Request::PowerControl { mode } => (b'A', format!("C203D6{mode:04X}")),
        Request::DateRead => (b'A', "C211".into()),
        Request::DateWrite { date } => (b'A', format!("C212{}", hex(date))),
        Request::SerialRead => (b'A', "C216".into()),
        Request::ModelRead => (b'A', "C217".into()),
        Request::TagRead => (b'A', "F010".into()),
        Request::FormerTagRead => (b'A', "F012".into()),
        Request::TagWrite { tag } => (b'A', format!("F011{}", hex(tag))),
        Request::ScheduleRead { program } => (b'A', format!("C221{program:02X}")),
        Request::ScheduleWrite { numbers } => (b'A', format!("C222{}{}", hex(numbers), hex(&[0; 8]))),
        Request::ScheduleEnable { program, enable } => (b'A', format!("C215{program:02X}{enable:02X}")),
    }
}

// The packet, or refusal 10, 20 or 21, in that order.
pub fn encode(dest: u16, request: &Request, room: usize) -> Result<Vec<u8>, u8> {
    if room < 64 {
        return Err(10);
    }
    let address = address(dest).ok_or(20)?;
    if !is_in_range(request) {
        return Err(21);
    }
    let (kind, text) = type_and_text(request);
    Ok(packet(address, b'0', kind, text.as_bytes()))
}

fn digit(byte: u8) -> Option<u16> {
    (byte as char).to_digit(16).map(|value| value as u16)
}

fn number(digits: &[u8]) -> Option<u16> {
    digits.iter().try_fold(0, |value, &byte| Some(value << 4 | digit(byte)?))
}

// What is left of a text that is taken apart from its front.
struct Text<'a>(&'a [u8]);

impl Text<'_> {
    fn name(&mut self, name: &str) -> Option<()> {
        self.0 = self.0.strip_prefix(name.as_bytes())?;
        Some(())
    }

    fn digits(&mut self, count: usize) -> Option<u16> {
        let (front, rest) = self.0.split_at_checked(count)?;
        self.0 = rest;
        number(front)
    }

    // A result, a status or an operation type: 00 or 01.
    fn flag(&mut self) -> Option<u16> {
        self.digits(2).filter(|&flag| flag <= 1)
    }

    fn date(&mut self) -> Option<Vec<u16>> {
        (0..7).map(|_| self.digits(2)).collect()
    }

    // Everything that is left, two digits a byte, at most 16 bytes.
    fn bytes(&mut self) -> Option<Vec<u8>> {
        let mut bytes = Vec::new();
        while !self.0.is_empty() {
            bytes.push(self.digits(2)? as u8);
        }
        Some(bytes).filter(|bytes| bytes.len() <= 16)
    }

    // Everything that is left: the sixteen numbers of a program.
    fn program(&mut self) -> Option<Vec<u8>> {
        self.bytes().filter(|bytes| bytes.len() == 16)
    }

    fn end(&self) -> Option<()> {
        self.0.is_empty().then_some(())
    }
}

fn reply(kind: u8, numbers: Vec<u16>) -> Option<Reply> {
    Some(Reply { kind, numbers, bytes: Vec::new() })
}

fn parameter(kind: u8, mut text: Text) -> Option<Reply> {
    let result = text.flag()?;
    let (page, code) = (text.digits(2)?, text.digits(2)?);
    let operation = text.flag()?;
    let (largest, value) = (text.digits(4)?, text.digits(4)?);
    text.end()?;
    reply(kind, vec![result, page, code, operation, largest, value])
}

fn null(mut text: Text) -> Option<Reply> {
    text.name("BE")?;
    text.end()?;
    reply(101, vec![])
}

fn power_read(mut text: Text) -> Option<Reply> {
    text.name("02")?;
    let status = text.flag()?;
    text.name("D6000004")?;
    let mode = text.digits(4).filter(|mode| [1, 2, 4].contains(mode))?;
    text.end()?;
    reply(104, vec![status, mode])
}

fn power_control(mut text: Text) -> Option<Reply> {
    let status = text.flag()?;
    text.name("C203D6")?;
    let mode = text.digits(4)?;
    text.end()?;
    reply(105, vec![status, mode])
}

fn date_read(mut text: Text) -> Option<Reply> {
    text.name("C311")?;
    let date = text.date()?;
    text.end()?;
    reply(106, date)
}

fn date_write(mut text: Text) -> Option<Reply> {
    text.name("C312")?;
    let mut numbers = vec![text.flag()?];
    numbers.extend(text.date()?);
    text.end()?;
    reply(107, numbers)
}

fn item(kind: u8, name: &str, mut text: Text) -> Option<Reply> {
    text.name(name)?;
    Some(Reply { kind, numbers: vec![], bytes: text.bytes()? })
}

fn tag_write(mut text: Text) -> Option<Reply> {
    text.name("F111")?;
    Some(Reply { kind: 112, numbers: vec![text.flag()?], bytes: text.bytes()? })
}

fn schedule_read(mut text: Text) -> Option<Reply> {
    text.name("C321")?;
    Some(Reply { kind: 113, numbers: vec![], bytes: text.program()? })
}

fn schedule_write(mut text: Text) -> Option<Reply> {
    text.name("C322")?;
    Some(Reply { kind: 114, numbers: vec![text.flag()?], bytes: text.program()? })
}

fn schedule_enable(mut text: Text) -> Option<Reply> {
    text.name("C315")?;
    let (status, program, enable) = (text.flag()?, text.digits(2)?, text.digits(2)?);
    text.end()?;
    reply(115, vec![status, program, enable])
}

fn command_reply(text: &[u8]) -> Option<Reply> {
    null(Text(text))
        .or_else(|| power_read(Text(text)))
        .or_else(|| power_control(Text(text)))
        .or_else(|| date_read(Text(text)))
        .or_else(|| date_write(Text(text)))
        .or_else(|| item(108, "C316", Text(text)))
        .or_else(|| item(109, "C317", Text(text)))
        .or_else(|| item(110, "F110", Text(text)))
        .or_else(|| item(111, "F112", Text(text)))
        .or_else(|| tag_write(Text(text)))
        .or_else(|| schedule_read(Text(text)))
        .or_else(|| schedule_write(Text(text)))
        .or_else(|| schedule_enable(Text(text)))
}

// The reply that a message from STX to ETX holds under its packet's type.
fn message_reply(kind: u8, message: &[u8]) -> Option<Reply> {
    let text = message.strip_prefix(&[0x02])?.strip_suffix(&[0x03])?;
    match kind {
        b'B' => command_reply(text),
        b'D' => parameter(102, Text(text)),
        b'F' => parameter(103, Text(text)),
        _ => None,
    }
}

// L + 9 by the length digits of the first seven bytes or more; else 0.
pub fn reply_size(first: &[u8]) -> usize {
    let l = first.get(5..7).and_then(number).filter(|l| (4..=64).contains(l));
    l.map_or(0, |l| usize::from(l) + 9)
}

// The reply with its sender's ID in front of the numbers, or refusal 30 to 35, in that order.
pub fn read(packet: &[u8]) -> Result<Reply, u8> {
    let size = packet.len();
    if size < 13 {
        return Err(30);
    }
    let (source, kind) = (packet[3], packet[4]);
    if packet[..3] != [0x01, b'0', b'0'] || !(b'A'..=b'H').contains(&source) || !b"BDF".contains(&kind) {
        return Err(31);
    }
    let l = number(&packet[5..7]).filter(|l| (4..=64).contains(l)).ok_or(32)?;
    if size != usize::from(l) + 9 {
        return Err(32);
    }
    if packet[size - 1] != 0x0D {
        return Err(33);
    }
    if packet[size - 2] != check_code(&packet[..size - 2]) {
        return Err(34);
    }
    let mut reply = message_reply(kind, &packet[7..size - 2]).ok_or(35)?;
    reply.numbers.insert(0, u16::from(source - 0x40));
    Ok(reply)
}
