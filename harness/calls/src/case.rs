//! A session with a call on it. Wallets and ids are told by small numbers; 0 is zeros.

pub struct Order {
    pub owner: u8,
    pub side: u8,
    pub escrowed: u64,
    pub revealed: bool,
    pub limit: u64,
    pub qty: u64,
    pub alloc: u64,
    pub alloc_left: u64,
    pub screened: bool,
    pub eligible: bool,
    /// Its exclusion kind.
    pub exclusion: u8,
    pub id: u8,
}

pub struct Fill {
    pub buyer: u8,
    pub seller: u8,
    pub qty: u64,
    pub rofr: bool,
    pub settled: bool,
}

pub struct Header {
    pub times: [i64; 3],
    pub max_cash: u64,
    pub min_reveals: u8,
    pub forced: bool,
    pub authority: u8,
    pub mark: bool,
    pub reserve: u64,
    pub reference: u64,
    pub policy: u8,
    pub band_bps: u64,
}

/// All that a call of any kind carries.
pub struct Call {
    /// Its place in `MARKS`, or any number above.
    pub kind: u8,
    pub now: i64,
    pub order: u8,
    pub side: u8,
    pub verdict: u8,
    pub has_id: bool,
    pub id: u8,
    pub max_fills: u8,
    pub wallet: u8,
    pub fill: u32,
    pub qty: u64,
    pub reason: u8,
}

pub const MARKS: [&str; 9] = ["SC", "CL", "AL", "RX", "RC", "ST", "SK", "FN", "EX"];

pub struct Case {
    pub header: Header,
    pub phase: u8,
    /// clear_price, cleared_volume, reserve_price, reference_mark, rofr_qty
    pub figures: [u64; 5],
    pub fills_settled: u32,
    pub skipped: u32,
    pub orders: Vec<Order>,
    pub fills: Vec<Fill>,
    /// What every byte of the places past the two counts holds: no call may heed it.
    pub past: u8,
    pub call: Call,
}

impl Order {
    /// Screened, and taking no part.
    pub fn is_excluded(&self) -> bool {
        self.screened && !self.eligible
    }
}

impl Call {
    /// The mark of its record; a kind that no record has is marked `--`.
    pub fn mark(&self) -> &'static str {
        MARKS.get(usize::from(self.kind)).unwrap_or(&"--")
    }
}

/// The bytes of a wallet or an id.
pub fn bytes<const N: usize>(of: u8) -> [u8; N] {
    let mut b = [0; N];
    b[0] = of;
    b[N - 1] = of;
    b
}
