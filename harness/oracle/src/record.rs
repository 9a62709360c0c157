//! The records of a session file as values, and their bytes.

#[derive(Clone)]
pub struct Header {
    pub reveal_end: i64,
    pub rofr_window: i64,
    pub settle_deadline: i64,
    pub max_cash: u64,
    pub min_reveals: u8,
    pub forced: bool,
    pub rofr_authority: [u8; 32],
    pub mark: bool,
    pub reserve: u64,
    pub reference: u64,
    pub policy: u8,
    pub band_bps: u64,
    /// Of `SI`; `SH` has none.
    pub decimals: Option<u8>,
}

#[derive(Clone, Debug)]
pub struct Order {
    pub owner: [u8; 32],
    pub side: u8,
    pub escrowed: u64,
    pub revealed: bool,
    pub limit: u64,
    pub qty: u64,
}

#[derive(Clone, Debug)]
pub enum Call {
    Screen { now: i64, order: u8, side: u8, verdict: u8, id: Option<[u8; 16]> },
    Clear { now: i64 },
    Allocate { now: i64, max_fills: u8 },
    Exercise { now: i64, issuer: [u8; 32], fill: u32, qty: u64 },
    Close { now: i64, caller: [u8; 32] },
    Settle { fill: u32 },
    Skip { now: i64, fill: u32, reason: u8 },
    Finish { now: i64 },
    Expire { now: i64 },
}

impl Header {
    pub fn write(&self, out: &mut Vec<u8>) {
        let mark = if self.decimals.is_some() { "SI" } else { "SH" };
        put(out, mark, &[&self.reveal_end.to_le_bytes(), &self.rofr_window.to_le_bytes(), &self.settle_deadline.to_le_bytes()]);
        out.extend(self.max_cash.to_le_bytes());
        out.extend([self.min_reveals, u8::from(self.forced)]);
        out.extend(self.rofr_authority);
        out.push(u8::from(self.mark));
        out.extend(self.reserve.to_le_bytes());
        out.extend(self.reference.to_le_bytes());
        out.push(self.policy);
        out.extend(self.band_bps.to_le_bytes());
        out.extend(self.decimals);
    }
}

impl Order {
    pub fn write(&self, out: &mut Vec<u8>) {
        put(out, "OR", &[&self.owner, &[self.side], &self.escrowed.to_le_bytes(), &[u8::from(self.revealed)]]);
        out.extend(self.limit.to_le_bytes());
        out.extend(self.qty.to_le_bytes());
    }
}

impl Call {
    pub fn write(&self, out: &mut Vec<u8>) {
        match self {
            Call::Screen { now, order, side, verdict, id } => {
                let id_bytes = id.unwrap_or_default();
                put(out, "SC", &[&now.to_le_bytes(), &[*order, *side, *verdict, u8::from(id.is_some())], &id_bytes])
            }
            Call::Clear { now } => put(out, "CL", &[&now.to_le_bytes()]),
            Call::Allocate { now, max_fills } => put(out, "AL", &[&now.to_le_bytes(), &[*max_fills]]),
            Call::Exercise { now, issuer, fill, qty } => {
                put(out, "RX", &[&now.to_le_bytes(), issuer, &fill.to_le_bytes(), &qty.to_le_bytes()])
            }
            Call::Close { now, caller } => put(out, "RC", &[&now.to_le_bytes(), caller]),
            Call::Settle { fill } => put(out, "ST", &[&fill.to_le_bytes()]),
            Call::Skip { now, fill, reason } => put(out, "SK", &[&now.to_le_bytes(), &fill.to_le_bytes(), &[*reason]]),
            Call::Finish { now } => put(out, "FN", &[&now.to_le_bytes()]),
            Call::Expire { now } => put(out, "EX", &[&now.to_le_bytes()]),
        }
    }

    /// The clock that the call is made at; a settle carries none.
    pub fn clock(&self) -> Option<i64> {
        match *self {
            Call::Screen { now, .. }
            | Call::Clear { now }
            | Call::Allocate { now, .. }
            | Call::Exercise { now, .. }
            | Call::Close { now, .. }
            | Call::Skip { now, .. }
            | Call::Finish { now }
            | Call::Expire { now } => Some(now),
            Call::Settle { .. } => None,
        }
    }
}

fn put(out: &mut Vec<u8>, mark: &str, parts: &[&[u8]]) {
    out.extend(mark.as_bytes());
    parts.iter().for_each(|p| out.extend(*p));
}
