// The functions of station.h, called with lent memory whose every byte is compared afterwards.
use crate::plain::{Reply, Request};

extern "C" {
    fn station_encode_get(dest: u16, page: u8, code: u8, out: *mut u8, out_len: usize, size: *mut usize) -> u8;
    fn station_encode_set(dest: u16, page: u8, code: u8, value: u16, out: *mut u8, out_len: usize, size: *mut usize) -> u8;
    fn station_encode_power_read(dest: u16, out: *mut u8, out_len: usize, size: *mut usize) -> u8;
    fn station_encode_power_control(dest: u16, mode: u16, out: *mut u8, out_len: usize, size: *mut usize) -> u8;
    fn station_encode_date_read(dest: u16, out: *mut u8, out_len: usize, size: *mut usize) -> u8;
    fn station_encode_date_write(
        dest: u16,
        year: u8,
        month: u8,
        day: u8,
        weekday: u8,
        hour: u8,
        minute: u8,
        daylight: u8,
        out: *mut u8,
        out_len: usize,
        size: *mut usize,
    ) -> u8;
    fn station_weekday(year: u8, month: u8, day: u8) -> u8;
    fn station_encode_serial_read(dest: u16, out: *mut u8, out_len: usize, size: *mut usize) -> u8;
    fn station_encode_model_read(dest: u16, out: *mut u8, out_len: usize, size: *mut usize) -> u8;
    fn station_encode_tag_read(dest: u16, out: *mut u8, out_len: usize, size: *mut usize) -> u8;
    fn station_encode_former_tag_read(dest: u16, out: *mut u8, out_len: usize, size: *mut usize) -> u8;
    fn station_encode_tag_write(dest: u16, tag: *const u8, tag_len: usize, out: *mut u8, out_len: usize, size: *mut usize) -> u8;
    fn station_encode_schedule_read(dest: u16, program: u8, out: *mut u8, out_len: usize, size: *mut usize) -> u8;
    fn station_encode_schedule_write(
        dest: u16,
        program: u8,
        on_hour: u8,
        on_minute: u8,
        off_hour: u8,
        off_minute: u8,
        input: u8,
        week: u8,
        flags: u8,
        out: *mut u8,
        out_len: usize,
        size: *mut usize,
    ) -> u8;
    fn station_encode_schedule_enable(dest: u16, program: u8, enable: u8, out: *mut u8, out_len: usize, size: *mut usize) -> u8;
    fn station_read(
        packet: *const u8,
        packet_len: usize,
        numbers: *mut u16,
        numbers_len: usize,
        bytes: *mut u8,
        bytes_len: usize,
        count: *mut usize,
    ) -> u8;
    fn station_reply_size(first: *const u8, first_len: usize) -> usize;
}

// The length that first bytes tell.
pub fn weekday(year: u8, month: u8, day: u8) -> u8 {
    unsafe { station_weekday(year, month, day) }
}

pub fn reply_size(first: &[u8]) -> usize {
    unsafe { station_reply_size(first.as_ptr(), first.len()) }
}

// So much memory on both sides of a lent slice is looked at too.
const MARGIN: usize = 8;

// A lent slice between its margins.
#[derive(Clone, Debug, PartialEq)]
pub struct Lent<T>(Vec<T>);

impl<T: Copy> Lent<T> {
    // Neighbours differ and each call has another pattern, so that hardly a write puts down what stands there already.
    pub fn new(room: usize, pattern: usize, cast: fn(usize) -> T) -> Self {
        Lent((0..room + 2 * MARGIN).map(|place| cast(pattern.wrapping_add(place * 37))).collect())
    }

    fn room(&self) -> usize {
        self.0.len() - 2 * MARGIN
    }

    fn start(&mut self) -> *mut T {
        self.0[MARGIN..].as_mut_ptr()
    }

    // The slice begins with these; everything else is as it was.
    fn fill(&mut self, with: &[T]) {
        self.0[MARGIN..MARGIN + with.len()].copy_from_slice(with);
    }
}

// What a call of the encoder is lent, and its result.
#[derive(Clone, Debug, PartialEq)]
pub struct Encoding {
    pub out: Lent<u8>,
    pub size: usize,
    pub result: u8,
}

impl Encoding {
    pub fn plain(mut self, answer: Result<Vec<u8>, u8>) -> Self {
        self.result = match answer {
            Ok(packet) => {
                self.out.fill(&packet);
                self.size = packet.len();
                0
            }
            Err(refusal) => refusal,
        };
        self
    }

    pub fn proved(mut self, dest: u16, request: &Request) -> Self {
        let (out, room, size) = (self.out.start(), self.out.room(), &mut self.size as *mut usize);
        self.result = unsafe {
            match request {
                Request::Get { page, code } => station_encode_get(dest, *page, *code, out, room, size),
                Request::Set { page, code, value } => station_encode_set(dest, *page, *code, *value, out, room, size),
                Request::PowerRead => station_encode_power_read(dest, out, room, size),
                Request::PowerControl { mode } => station_encode_power_control(dest, *mode, out, room, size),
                Request::DateRead => station_encode_date_read(dest, out, room, size),
                Request::DateWrite { date: [yy, mm, dd, ww, hh, mn, ds] } => {
                    station_encode_date_write(dest, *yy, *mm, *dd, *ww, *hh, *mn, *ds, out, room, size)
                }
                Request::SerialRead => station_encode_serial_read(dest, out, room, size),
                Request::ModelRead => station_encode_model_read(dest, out, room, size),
                Request::TagRead => station_encode_tag_read(dest, out, room, size),
                Request::FormerTagRead => station_encode_former_tag_read(dest, out, room, size),
                Request::TagWrite { tag } => station_encode_tag_write(dest, tag.as_ptr(), tag.len(), out, room, size),
                Request::ScheduleRead { program } => station_encode_schedule_read(dest, *program, out, room, size),
                Request::ScheduleWrite { numbers: [pg, on_hour, on_min, off_hour, off_min, input, week, fl] } => {
                    station_encode_schedule_write(
                        dest, *pg, *on_hour, *on_min, *off_hour, *off_min, *input, *week, *fl, out, room, size,
                    )
                }
                Request::ScheduleEnable { program, enable } => {
                    station_encode_schedule_enable(dest, *program, *enable, out, room, size)
                }
            }
        };
        self
    }
}

// What a call of the reader is lent, and its result.
#[derive(Clone, Debug, PartialEq)]
pub struct Reading {
    pub numbers: Lent<u16>,
    pub bytes: Lent<u8>,
    pub count: usize,
    pub result: u8,
}

impl Reading {
    pub fn plain(mut self, answer: Result<Reply, u8>) -> Self {
        self.result = match answer {
            _ if self.numbers.room() < 9 || self.bytes.room() < 16 => 10,
            Ok(reply) => {
                self.numbers.fill(&reply.numbers);
                self.bytes.fill(&reply.bytes);
                self.count = reply.bytes.len();
                reply.kind
            }
            Err(refusal) => refusal,
        };
        self
    }

    pub fn proved(mut self, packet: &[u8]) -> Self {
        let (numbers, numbers_room) = (self.numbers.start(), self.numbers.room());
        let (bytes, bytes_room) = (self.bytes.start(), self.bytes.room());
        let count = &mut self.count as *mut usize;
        self.result = unsafe { station_read(packet.as_ptr(), packet.len(), numbers, numbers_room, bytes, bytes_room, count) };
        self
    }
}
