// The functions of board.h, called with lent memory whose every byte is compared afterwards.
use crate::inputs::Identity;
use crate::plain::Answer;

extern "C" {
    fn board_start(
        id: u8,
        serial: *const u8,
        serial_len: usize,
        model: *const u8,
        model_len: usize,
        store: *mut u8,
        store_len: usize,
        state: *mut u8,
        state_len: usize,
    ) -> u8;
    fn board_byte(
        state: *mut u8,
        state_len: usize,
        store: *mut u8,
        store_len: usize,
        b: u8,
        reply: *mut u8,
        reply_len: usize,
        size: *mut usize,
        refusal: *mut u8,
    ) -> u8;
    fn board_gap(state: *mut u8, state_len: usize, store: *const u8, store_len: usize, refusal: *mut u8) -> u8;
    fn board_step(
        state: *mut u8,
        state_len: usize,
        store: *mut u8,
        store_len: usize,
        reply: *mut u8,
        reply_len: usize,
        size: *mut usize,
        refusal: *mut u8,
    ) -> u8;
    fn board_unused(store: *mut u8, store_len: usize) -> u8;
}

pub const STATE: usize = 111;

// So much memory on both sides of a lent slice is looked at too.
const MARGIN: usize = 8;

// A lent slice between its margins.
#[derive(Clone, Debug, PartialEq)]
pub struct Lent(Vec<u8>);

impl Lent {
    pub fn of(bytes: &[u8]) -> Self {
        let mut lent = Lent(vec![0xA5; bytes.len() + 2 * MARGIN]);
        lent.bytes_mut().copy_from_slice(bytes);
        lent
    }

    // Neighbours differ and each call has another pattern, so that hardly a write puts down what stands there already.
    pub fn fill(&mut self, room: usize, pattern: u8) {
        self.0.clear();
        self.0.extend((0..room + 2 * MARGIN).map(|place| pattern.wrapping_add(place as u8 * 37)));
    }

    pub fn bytes(&self) -> &[u8] {
        &self.0[MARGIN..self.0.len() - MARGIN]
    }

    pub fn bytes_mut(&mut self) -> &mut [u8] {
        let end = self.0.len() - MARGIN;
        &mut self.0[MARGIN..end]
    }

    fn pointer(&mut self) -> *mut u8 {
        self.bytes_mut().as_mut_ptr()
    }

    fn len(&self) -> usize {
        self.bytes().len()
    }
}

#[derive(Clone, Copy, Debug)]
pub enum Call {
    Byte(u8),
    Gap,
    Step,
}

// What a call answers and leaves in the places for a length and a refusal.
#[derive(Clone, Copy, Debug, PartialEq)]
pub struct Told {
    pub kind: u8,
    pub size: usize,
    pub refusal: u8,
}

// What the two places hold before a call: no length and no refusal.
const NO_SIZE: usize = 0x5A5A_5A5A;
const NO_REFUSAL: u8 = 0x5A;

impl From<Answer> for Told {
    fn from(answer: Answer) -> Self {
        let (kind, size, refusal) = match answer {
            Answer::Waiting => (0, NO_SIZE, NO_REFUSAL),
            Answer::Silent => (1, NO_SIZE, NO_REFUSAL),
            Answer::Begun => (2, NO_SIZE, NO_REFUSAL),
            Answer::More => (3, NO_SIZE, NO_REFUSAL),
            Answer::Ended => (4, NO_SIZE, NO_REFUSAL),
            Answer::Refused(refusal) => (5, NO_SIZE, refusal),
            Answer::Reply(size) => (6, size, NO_REFUSAL),
        };
        Told { kind, size, refusal }
    }
}

pub fn start(identity: &Identity, store: &mut Lent, state: &mut Lent) -> u8 {
    let Identity { id, serial, model } = identity;
    let (store, store_len, state, state_len) = (store.pointer(), store.len(), state.pointer(), state.len());
    unsafe { board_start(*id, serial.as_ptr(), serial.len(), model.as_ptr(), model.len(), store, store_len, state, state_len) }
}

pub fn call(call: Call, state: &mut Lent, store: &mut Lent, reply: &mut Lent) -> Told {
    let (mut size, mut refusal) = (NO_SIZE, NO_REFUSAL);
    let (state, state_len, store, store_len) = (state.pointer(), state.len(), store.pointer(), store.len());
    let (reply, reply_len, size_place, refusal_place) =
        (reply.pointer(), reply.len(), &mut size as *mut usize, &mut refusal as *mut u8);
    let kind = unsafe {
        match call {
            Call::Byte(b) => board_byte(state, state_len, store, store_len, b, reply, reply_len, size_place, refusal_place),
            Call::Gap => board_gap(state, state_len, store, store_len, refusal_place),
            Call::Step => board_step(state, state_len, store, store_len, reply, reply_len, size_place, refusal_place),
        }
    };
    Told { kind, size, refusal }
}

pub fn unused(store: &mut Lent) -> u8 {
    unsafe { board_unused(store.pointer(), store.len()) }
}
