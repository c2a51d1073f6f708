// Nanoseconds a byte of the proved receiver and of a plain one that does the same framing, over one recording of 10 MB in one run.
// The recording is made from a fixed seed: good packets of every length, packets with one damaged byte, and stray bytes.
use std::time::Instant;

extern "C" {
    fn recording_count(recording: *const u8, len: usize, refused: *mut u64) -> u64;
}

fn proved(recording: &[u8]) -> (u64, u64) {
    let mut refused = 0;
    let packets = unsafe { recording_count(recording.as_ptr(), recording.len(), &mut refused) };
    (packets, refused)
}

// A plain receiver, written from document 01 and, for digits, document 02 by itself.
struct Plain {
    held: [u8; 73],
    len: usize,
    size: usize,
}

enum Step {
    Waiting,
    Refused,
    Whole,
}

fn digit(b: u8) -> Option<usize> {
    match b {
        b'0'..=b'9' => Some((b - b'0') as usize),
        b'A'..=b'F' => Some((b - b'A') as usize + 10),
        b'a'..=b'f' => Some((b - b'a') as usize + 10),
        _ => None,
    }
}

impl Plain {
    fn header_is_good(&mut self) -> bool {
        let h = &self.held;
        if h[1] != b'0' || h[3] != b'0' || !matches!(h[4], b'A' | b'C' | b'E') {
            return false;
        }
        let (Some(high), Some(low)) = (digit(h[5]), digit(h[6])) else {
            return false;
        };
        let l = high * 16 + low;
        self.size = l + 9;
        (4..=64).contains(&l)
    }

    fn packet_is_good(&self) -> bool {
        let p = &self.held[..self.size];
        let n = p.len();
        let code = p[1..n - 2].iter().fold(0, |x, b| x ^ b);
        p[n - 1] == 13 && p[n - 2] == code && p[7] == 2 && p[n - 3] == 3
    }

    fn byte(&mut self, b: u8) -> Step {
        if self.len == 0 && b != 1 {
            return Step::Refused;
        }
        self.held[self.len] = b;
        self.len += 1;
        if self.len < 7 {
            return Step::Waiting;
        }
        if self.len == 7 {
            if self.header_is_good() {
                return Step::Waiting;
            }
            self.len = 0;
            return Step::Refused;
        }
        if self.len < self.size {
            return Step::Waiting;
        }
        self.len = 0;
        if self.packet_is_good() {
            Step::Whole
        } else {
            Step::Refused
        }
    }
}

fn plain(recording: &[u8]) -> (u64, u64) {
    let mut receiver = Plain { held: [0; 73], len: 0, size: 0 };
    let (mut packets, mut refused) = (0, 0);
    for &b in recording {
        match receiver.byte(b) {
            Step::Waiting => {}
            Step::Refused => refused += 1,
            Step::Whole => packets += 1,
        }
    }
    (packets, refused)
}

struct Random(u64);

impl Random {
    fn below(&mut self, n: u64) -> u64 {
        self.0 ^= self.0 << 13;
        self.0 ^= self.0 >> 7;
        self.0 ^= self.0 << 17;
        self.0 % n
    }
}

fn recording_of(bytes: usize, seed: u64) -> Vec<u8> {
    let mut random = Random(seed);
    let mut out = Vec::with_capacity(bytes + 80);
    while out.len() < bytes {
        let text = 2 + random.below(61) as usize;
        let l = text + 2;
        let from = out.len();
        out.extend([1, b'0', b'A' + random.below(8) as u8, b'0', b"ACE"[random.below(3) as usize]]);
        out.extend([b"0123456789ABCDEF"[l / 16], b"0123456789ABCDEF"[l % 16], 2]);
        for _ in 0..text {
            out.push(random.below(256) as u8);
        }
        out.push(3);
        let code = out[from + 1..].iter().fold(0, |x, b| x ^ b);
        out.extend([code, 13]);
        if random.below(10) == 0 {
            let at = from + random.below((out.len() - from) as u64) as usize;
            out[at] ^= 1 + random.below(255) as u8;
        }
        if random.below(20) == 0 {
            out.push(random.below(256) as u8);
        }
    }
    out.truncate(bytes);
    out
}

fn measure(name: &str, recording: &[u8], run: impl Fn(&[u8]) -> (u64, u64)) -> (u64, u64) {
    let mut best = f64::MAX;
    let mut found = (0, 0);
    for _ in 0..7 {
        let began = Instant::now();
        found = run(recording);
        best = best.min(began.elapsed().as_secs_f64());
    }
    println!("{name:28} {:6.2} ns a byte   {} packets, {} refusals", best * 1e9 / recording.len() as f64, found.0, found.1);
    found
}

fn main() {
    let seed = 0x5EED;
    let recording = recording_of(10_000_000, seed);
    println!("recording of {} bytes, seed {seed:#x}, best of 7", recording.len());
    let a = measure("proved", &recording, proved);
    let b = measure("plain Rust", &recording, plain);
    assert!(a == b, "the receivers disagree");
}
