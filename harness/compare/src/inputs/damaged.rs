//! Damaged copies of courses.
use oracle::generate::{course, damage};
use oracle::random::Random;

pub fn at_random(r: &mut Random) -> Vec<u8> {
    let mut file = course(r);
    damage(r, &mut file);
    file
}

/// Walks through a course byte by byte, with each kind of damage at each, then through another.
pub struct EveryByte {
    random: Random,
    file: Vec<u8>,
    at: usize,
    kind: u8,
}

const KINDS: u8 = 6;

impl EveryByte {
    pub fn new(seed: u64) -> EveryByte {
        EveryByte { random: Random(!seed), file: Vec::new(), at: 0, kind: 0 }
    }

    pub fn next_copy(&mut self) -> Vec<u8> {
        if self.kind == KINDS {
            self.kind = 0;
            self.at += 1;
        }
        while self.at >= self.file.len() {
            self.file = course(&mut self.random);
            self.at = 0;
        }
        self.kind += 1;
        damaged_at(&self.file, self.at, self.kind - 1)
    }
}

fn damaged_at(file: &[u8], at: usize, kind: u8) -> Vec<u8> {
    let mut copy = file.to_vec();
    match kind {
        0 => copy.truncate(at),
        1 => copy[at] ^= 1,
        2 => copy[at] ^= 128,
        3 => copy[at] = copy[at].wrapping_add(1 + at as u8 % 254),
        4 => {
            copy.remove(at);
        }
        _ => copy.insert(at, at as u8),
    }
    copy
}
