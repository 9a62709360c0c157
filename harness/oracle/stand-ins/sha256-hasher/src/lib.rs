//! Stand-in, and not SHA-256: the commitments are left out of document 01, so every order has the same one.
pub struct Hash([u8; 32]);

impl Hash {
    pub fn to_bytes(self) -> [u8; 32] {
        self.0
    }
}

pub fn hashv(_vals: &[&[u8]]) -> Hash {
    Hash([0; 32])
}
