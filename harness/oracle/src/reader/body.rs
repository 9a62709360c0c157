//! The fields of a body, little-endian, in turn. Its width was checked.

pub struct Body<'a>(pub &'a [u8]);

impl Body<'_> {
    pub fn bytes<const N: usize>(&mut self) -> [u8; N] {
        let (field, rest) = self.0.split_at(N);
        self.0 = rest;
        field.try_into().expect("N bytes")
    }
    pub fn u8(&mut self) -> u8 {
        self.bytes::<1>()[0]
    }
    pub fn u32(&mut self) -> u32 {
        u32::from_le_bytes(self.bytes())
    }
    pub fn u64(&mut self) -> u64 {
        u64::from_le_bytes(self.bytes())
    }
    pub fn i64(&mut self) -> i64 {
        i64::from_le_bytes(self.bytes())
    }
    /// 0 or 1; else 4.
    pub fn flag(&mut self) -> Result<bool, u8> {
        match self.u8() {
            0 => Ok(false),
            1 => Ok(true),
            _ => Err(4),
        }
    }
}
