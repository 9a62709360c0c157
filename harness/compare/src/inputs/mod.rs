//! The inputs that are compared.
mod cover;
mod damaged;
mod fixed;
pub mod mutated;

use damaged::EveryByte;
use oracle::generate;
use oracle::random::Random;

pub use fixed::fixed;

/// Generated inputs without end: courses and any calls, files damaged at random and at every byte, and files of thousands of records.
pub struct Generated {
    seed: u64,
    n: u64,
    every_byte: EveryByte,
}

impl Generated {
    pub fn new(seed: u64) -> Generated {
        Generated { seed, n: 0, every_byte: EveryByte::new(seed) }
    }
}

impl Iterator for Generated {
    type Item = Vec<u8>;

    fn next(&mut self) -> Option<Vec<u8>> {
        let n = self.n;
        self.n += 1;
        let r = &mut Random::item(self.seed, n);
        Some(match n % 20 {
            _ if n % 5000 == 4999 => generate::long(r),
            0..=9 => generate::course(r),
            10..=12 => generate::any_calls(r),
            13..=14 => damaged::at_random(r),
            _ => self.every_byte.next_copy(),
        })
    }
}
