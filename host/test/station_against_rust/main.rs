// Compares the proved encoder, reader, reply size and weekday, called over C, with the plain ones of plain.rs: every result and every
// byte lent.
mod inputs;
mod library;
mod plain;

use inputs::{destination, out_room, reply_bytes, request, Random, REQUESTS};
use library::{Encoding, Lent, Reading};
use plain::{hex, packet, Request};

const SEED: u64 = 0x5EED_0001;
const RANDOM_REQUESTS: usize = 2_000_000;
const RANDOM_REPLIES: usize = 4_000_000;

// Each of these has to come up so often.
const ENCODER_RESULTS: [u8; 4] = [0, 10, 20, 21];
const READER_RESULTS: [u8; 22] =
    [10, 30, 31, 32, 33, 34, 35, 101, 102, 103, 104, 105, 106, 107, 108, 109, 110, 111, 112, 113, 114, 115];
const LEAST: u64 = 100;

struct Comparison {
    random: Random,
    encoder: [u64; 256],
    reader: [u64; 256],
}

impl Comparison {
    fn request(&mut self, dest: u16, request: &Request, room: usize) {
        let pattern = self.random.next() as usize;
        let before = Encoding { out: Lent::new(room, pattern, |n| n as u8), size: pattern, result: 255 };
        let plain = before.clone().plain(plain::encode(dest, request, room));
        let proved = before.proved(dest, request);
        if plain != proved {
            let results = format!("result {} instead of {}", proved.result, plain.result);
            differ(&format!("request {request:X?} to {dest:X}, room {room}: {results}"), &plain, &proved);
        }
        self.encoder[plain.result as usize] += 1;
    }

    fn reply(&mut self, packet: &[u8], numbers_room: usize, bytes_room: usize) {
        let first = &packet[..self.random.below(packet.len() + 1)];
        for bytes in [packet, first] {
            let (plain, proved) = (plain::reply_size(bytes), library::reply_size(bytes));
            if plain != proved {
                differ(&format!("length of {}", hex(bytes)), &plain, &proved);
            }
        }
        let pattern = self.random.next() as usize;
        let (numbers, bytes) = (Lent::new(numbers_room, pattern, |n| n as u16), Lent::new(bytes_room, pattern, |n| n as u8));
        let before = Reading { numbers, bytes, count: pattern, result: 255 };
        let plain = before.clone().plain(plain::read(packet));
        let proved = before.proved(packet);
        if plain != proved {
            let results = format!("result {} instead of {}", proved.result, plain.result);
            differ(&format!("packet {}, rooms {numbers_room} and {bytes_room}: {results}", hex(packet)), &plain, &proved);
        }
        self.reader[plain.result as usize] += 1;
    }

    fn random_requests(&mut self) {
        for n in 0..RANDOM_REQUESTS {
            let (dest, room) = (destination(&mut self.random), out_room(&mut self.random));
            let request = request(&mut self.random, n % REQUESTS);
            self.request(dest, &request, room);
        }
    }

    fn random_replies(&mut self) {
        for _ in 0..RANDOM_REPLIES {
            let packet = reply_bytes(&mut self.random);
            let any = self.random.one_in(16);
            let (numbers, bytes) = if any { (0, 0) } else { (9, 16) };
            let (numbers, bytes) = (self.random.from_to(numbers, 12), self.random.from_to(bytes, 20));
            self.reply(&packet, numbers, bytes);
        }
    }

    // A good request of each kind to every destination and into every room.
    fn destinations_and_rooms(&mut self) {
        for which in 0..REQUESTS {
            let mut any = std::iter::repeat_with(|| request(&mut self.random, which));
            let request = any.find(|request| plain::encode(1, request, 64).is_ok()).unwrap();
            (0..=u16::MAX).for_each(|dest| self.request(dest, &request, 64));
            (0..=80).for_each(|room| self.request(1, &request, room));
        }
    }

    // Every mode, every value of each date field in a good date, every day, every tag length to 300; and every value of programs.
    fn values(&mut self) {
        (0..=u16::MAX).for_each(|mode| self.request(1, &Request::PowerControl { mode }, 64));
        for (field, value) in (0..7).flat_map(|field| (0..=255).map(move |value| (field, value))) {
            let mut date = [26, 1, 1, 4, 0, 0, 0];
            date[field] = value;
            self.request(1, &Request::DateWrite { date }, 64);
        }
        self.days();
        for count in 0..=300 {
            let tag = self.random.bytes(count);
            self.request(1, &Request::TagWrite { tag }, 64);
        }
        self.programs();
    }

    // Every day of the century and around it, with its weekday and with any.
    fn days(&mut self) {
        let days = (0..=100).flat_map(|year| (0..=13).flat_map(move |month| (0..=32).map(move |day| (year, month, day))));
        for (year, month, day) in days {
            let (plain, proved) = (plain::weekday_of(year, month, day).unwrap_or(7), library::weekday(year, month, day));
            if plain != proved {
                differ(&format!("weekday of {year}-{month}-{day}"), &plain, &proved);
            }
            for weekday in [plain, self.random.below(8) as u8] {
                self.request(1, &Request::DateWrite { date: [year, month, day, weekday, 0, 0, 0] }, 64);
            }
        }
    }

    // Every hour with every minute, every other number of a program that is good, every program and every enable.
    fn programs(&mut self) {
        let good = [2, 7, 0, 23, 30, 17, 0x1F, 6];
        for (hour, minute) in (0..=255).flat_map(|hour| (0..=255).map(move |minute| (hour, minute))) {
            for place in [1, 3] {
                let mut numbers = good;
                numbers[place..place + 2].copy_from_slice(&[hour, minute]);
                self.request(1, &Request::ScheduleWrite { numbers }, 64);
            }
            self.request(1, &Request::ScheduleEnable { program: hour, enable: minute }, 64);
        }
        for (place, value) in (0..8).flat_map(|place| (0..=255).map(move |value| (place, value))) {
            let mut numbers = good;
            numbers[place] = value;
            self.request(1, &Request::ScheduleWrite { numbers }, 64);
            self.request(1, &Request::ScheduleRead { program: value }, 64);
        }
    }

    // Every mode of both power replies, and every pair of bytes in the place of each flag.
    fn reply_fields(&mut self) {
        for mode in 0..=u16::MAX {
            self.reply_text(b'B', format!("0200D6000004{mode:04X}").as_bytes());
            self.reply_text(b'B', format!("00C203D6{mode:04X}").as_bytes());
        }
        for (kind, text, flag) in FLAGS {
            for pair in 0..=u16::MAX {
                let mut text = text.to_vec();
                text[flag..flag + 2].copy_from_slice(&pair.to_be_bytes());
                self.reply_text(kind, &text);
            }
        }
    }

    fn reply_text(&mut self, kind: u8, text: &[u8]) {
        self.reply(&packet(b'0', b'A', kind, text), 9, 16);
    }
}

// Type, text and the place of a result, a status or an operation type.
const FLAGS: [(u8, &[u8], usize); 10] = [
    (b'D', b"0000100000640032", 0),
    (b'D', b"0000100000640032", 6),
    (b'F', b"0000100000640032", 0),
    (b'F', b"0000100000640032", 6),
    (b'B', b"0200D60000040001", 2),
    (b'B', b"00C203D60004", 0),
    (b'B', b"C3120000010106000000", 4),
    (b'B', b"F11100414243", 4),
    (b'B', b"C32200020700171E111F060000000000000000", 4),
    (b'B', b"C315000201", 4),
];

fn differ(input: &str, plain: &impl std::fmt::Debug, proved: &impl std::fmt::Debug) -> ! {
    eprintln!("station_against_rust: {input}\nplain  {plain:X?}\nproved {proved:X?}");
    std::process::exit(1);
}

// Prints how often each result came up, and says whether that is often enough.
fn shown(name: &str, counts: &[u64; 256], expected: &[u8]) -> bool {
    let came_up = counts.iter().enumerate().filter(|(_, count)| **count > 0);
    let list: Vec<String> = came_up.map(|(result, count)| format!("{result}: {count}")).collect();
    println!("{name}, how often each result: {}", list.join(", "));
    expected.iter().all(|&result| counts[result as usize] >= LEAST)
}

fn main() {
    println!("seed {SEED:X}");
    let mut comparison = Comparison { random: Random(SEED), encoder: [0; 256], reader: [0; 256] };
    comparison.destinations_and_rooms();
    comparison.values();
    comparison.reply_fields();
    comparison.random_requests();
    comparison.random_replies();
    let encoder = shown("encoder", &comparison.encoder, &ENCODER_RESULTS);
    let reader = shown("reader", &comparison.reader, &READER_RESULTS);
    if !(encoder && reader) {
        eprintln!("station_against_rust: a result came up fewer than {LEAST} times");
        std::process::exit(1);
    }
    println!("station_against_rust: {} inputs alike", comparison.encoder.iter().chain(&comparison.reader).sum::<u64>());
}
