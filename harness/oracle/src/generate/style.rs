//! What the numbers of one file have in common.
use crate::random::Random;
use crate::MAX_DECIMALS;

pub struct Style {
    /// Quantities near 2^64.
    pub wide: bool,
    /// One quantity for all orders, so that volumes, imbalances and residues tie.
    pub same_qty: bool,
    /// How many different limits, so that they tie.
    pub limits: u64,
    /// Limits near 2^64.
    pub high: bool,
    /// What the other limits are counted in: with 10^decimals, or near it, amounts of cash are of the quantities' size.
    pub unit: u64,
    /// Of a file that opens with `SI`.
    pub decimals: Option<u8>,
    /// How many investors: few make self-trades and caps.
    pub ids: u64,
    /// Percent of calls that are any at all.
    pub noise: u64,
    /// Percent of calls in the issuer's phase that end it: few fill the session with purchases.
    pub close: u64,
    pub reveal_end: i64,
    pub rofr_window: i64,
    pub settle_deadline: i64,
    /// A wallet's number, 0 for none.
    pub authority: u64,
}

impl Style {
    pub fn any(r: &mut Random) -> Style {
        let reveal_end = r.pick(&[0i64, 0, 100, -50, i64::MIN, i64::MAX - 40, i64::MIN + 3]);
        let authority = r.pick(&[0u64, 0, 1, 2, 19, 30]);
        let window = r.pick(&[0i64, 1, 5, 10]);
        let rofr_window = if authority == 0 && r.chance(95) { 0 } else { window };
        let decimals = r.one_in(3).then(|| decimals(r));
        let slack = if r.chance(95) { 1 + r.below(10) as i64 } else { r.below(2) as i64 };
        Style {
            wide: r.chance(20),
            same_qty: r.chance(20),
            limits: r.pick(&[1, 2, 3, 5, 9]),
            high: r.chance(if decimals.is_some() { 25 } else { 8 }),
            unit: decimals.filter(|_| r.one_in(2)).map_or(1, |d| 10u64.pow(u32::from(d.min(18)))),
            decimals,
            ids: r.pick(&[0, 1, 4, 30, 200, 200]),
            noise: r.pick(&[0, 5, 20, 60]),
            close: r.pick(&[35, 35, 2]),
            reveal_end,
            rofr_window,
            settle_deadline: reveal_end.saturating_add(rofr_window).saturating_add(slack),
            authority,
        }
    }

    pub fn rofr_end(&self) -> i64 {
        self.reveal_end.saturating_add(self.rofr_window)
    }

    pub fn qty(&self, r: &mut Random) -> u64 {
        if !self.wide {
            let top = r.pick(&[4, 40]);
            return 1 + r.below(top);
        }
        let edge = r.pick(&[1u64 << 63, (1 << 63) - 1, 1 << 62, u64::MAX, u64::MAX / 3, 1, 2, (1 << 60) + 7]);
        if r.chance(70) {
            edge
        } else {
            r.word() | 1
        }
    }

    pub fn limit(&self, r: &mut Random) -> u64 {
        let limit = 1 + r.below(self.limits);
        if self.high {
            u64::MAX - limit + 1
        } else {
            limit * self.unit + r.below(self.unit.min(2))
        }
    }

    /// A time at which the next call is let in, mostly.
    pub fn good_time(&self, r: &mut Random) -> i64 {
        let (reveal, last) = (self.reveal_end, self.settle_deadline.saturating_sub(1));
        r.pick(&[reveal, reveal, last, self.rofr_end().saturating_sub(1).max(reveal)])
    }

    /// A time at an edge or one beside it.
    pub fn edge_time(&self, r: &mut Random) -> i64 {
        let edge = r.pick(&[self.reveal_end, self.rofr_end(), self.settle_deadline, i64::MIN, i64::MAX, 0]);
        edge.saturating_add(r.below(3) as i64 - 1)
    }
}

/// Any that a header may name, and those at the edges; at times too many.
fn decimals(r: &mut Random) -> u8 {
    if r.one_in(20) {
        return r.pick(&[MAX_DECIMALS + 1, 38, 39, 255]);
    }
    let any = r.below(u64::from(MAX_DECIMALS) + 1) as u8;
    r.pick(&[0, 0, 1, 6, 18, 18, MAX_DECIMALS, MAX_DECIMALS, any, any])
}

/// The wallet of a number: zeros for 0. Some differ in the first byte, some in the last.
pub fn wallet(n: u64) -> [u8; 32] {
    let mut key = [0; 32];
    key[if n.is_multiple_of(2) { 31 } else { 0 }] = n as u8;
    key
}

/// The investor id of a number, likewise.
pub fn investor(n: u64) -> [u8; 16] {
    let mut id = [0; 16];
    id[if n.is_multiple_of(2) { 15 } else { 0 }] = n as u8;
    id
}
