//! Keys, and addresses made from seeds.

#[derive(Clone, Copy, Debug, Default, PartialEq, Eq)]
pub struct Pubkey(pub [u8; 32]);

impl Pubkey {
    /// The first 32 letters of the text: all that is needed is that keys differ.
    pub const fn from_text(s: &str) -> Pubkey {
        let b = s.as_bytes();
        let mut k = [0u8; 32];
        let mut i = 0;
        while i < 32 && i < b.len() {
            k[i] = b[i];
            i += 1;
        }
        Pubkey(k)
    }

    /// Four FNV-1a words over the program, the seeds' lengths and the seeds: equal for equal seeds, and else different.
    pub fn find_program_address(seeds: &[&[u8]], program: &Pubkey) -> (Pubkey, u8) {
        let mut k = [0u8; 32];
        for w in 0..4u64 {
            let mut h = 0xcbf2_9ce4_8422_2325u64 ^ w.wrapping_mul(0x9e37_79b9_7f4a_7c15);
            let mut eat = |b: u8| h = (h ^ u64::from(b)).wrapping_mul(0x0100_0000_01b3);
            program.0.iter().for_each(|b| eat(*b));
            for s in seeds {
                eat(s.len() as u8);
                s.iter().for_each(|b| eat(*b));
            }
            k[8 * w as usize..][..8].copy_from_slice(&h.to_le_bytes());
        }
        (Pubkey(k), 255)
    }
}

impl AsRef<[u8]> for Pubkey {
    fn as_ref(&self) -> &[u8] {
        &self.0
    }
}

#[macro_export]
macro_rules! declare_id {
    ($s:expr) => {
        pub const ID: $crate::Pubkey = $crate::Pubkey::from_text($s);
    };
}
