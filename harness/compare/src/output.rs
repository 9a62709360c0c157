//! An output to lend, every byte of it marked beforehand, between guard bytes. Also for `functions`, which includes this file.
#![allow(dead_code)] // each program uses a part

const GUARD: usize = 64;

/// The mark of a place: neighbours differ, so that bytes moved about are seen.
fn mark(place: usize) -> u8 {
    (place as u8).wrapping_mul(31) ^ 0x5a ^ (place >> 8) as u8
}

pub struct Output {
    bytes: Vec<u8>,
    room: usize,
}

impl Output {
    pub fn new() -> Output {
        Output { bytes: Vec::new(), room: 0 }
    }

    /// The output with so much room, marked anew.
    pub fn lend(&mut self, room: usize) -> &mut [u8] {
        self.room = room;
        self.bytes.clear();
        self.bytes.extend((0..room + 2 * GUARD).map(mark));
        &mut self.bytes[GUARD..GUARD + room]
    }

    pub fn given_back(&self) -> &[u8] {
        &self.bytes[GUARD..GUARD + self.room]
    }

    /// Whether the bytes of the output from a place on, and the guards around it, have their marks.
    pub fn is_untouched_from(&self, at: usize) -> bool {
        let before = 0..GUARD;
        let after = GUARD + at..self.bytes.len();
        before.chain(after).all(|i| self.bytes[i] == mark(i))
    }

    pub fn is_zeroed(&self) -> bool {
        self.given_back().iter().all(|b| *b == 0) && self.is_untouched_from(self.room)
    }
}
