//! SplitMix64: the same seed gives the same cases.

pub struct Random(pub u64);

impl Random {
    /// The numbers of item `n` of a seed, each item with its own.
    pub fn item(seed: u64, n: u64) -> Random {
        let mut r = Random(seed.wrapping_mul(0x1234_5678_9abc_def1) ^ n.wrapping_mul(0xff51_afd7_ed55_8ccd));
        for _ in 0..3 {
            r.word();
        }
        r
    }

    pub fn word(&mut self) -> u64 {
        self.0 = self.0.wrapping_add(0x9e37_79b9_7f4a_7c15);
        let mut z = self.0;
        z = (z ^ (z >> 30)).wrapping_mul(0xbf58_476d_1ce4_e5b9);
        z = (z ^ (z >> 27)).wrapping_mul(0x94d0_49bb_1331_11eb);
        z ^ (z >> 31)
    }

    pub fn below(&mut self, n: u64) -> u64 {
        self.word() % n
    }

    pub fn one_in(&mut self, n: u64) -> bool {
        self.below(n) == 0
    }

    pub fn chance(&mut self, percent: u64) -> bool {
        self.below(100) < percent
    }

    pub fn pick<T: Copy>(&mut self, from: &[T]) -> T {
        from[self.below(from.len() as u64) as usize]
    }
}
