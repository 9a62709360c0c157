//! The table of side totals, row by row, against sums added up here in 128 bits.
use crate::case::numbers;
use oracle::random::Random;
use oracle::MAX_ORDERS;
use std::collections::BTreeSet;

/// What the entry answers of a row.
#[repr(C)]
#[derive(Clone, Copy, Debug, PartialEq)]
struct Row {
    refusal: u8,
    count: usize,
    limit: u64,
    buy_hi: u64,
    buy_lo: u64,
    sell_hi: u64,
    sell_lo: u64,
}

extern "C" {
    /// Sides, limits and quantities, each as a pointer with its length; then the row.
    fn entry_side_totals(_: *const bool, _: usize, _: *const u64, _: usize, _: *const u64, _: usize, row: usize) -> Row;
}

#[derive(Debug)]
struct Orders {
    is_buy: Vec<bool>,
    limits: Vec<u64>,
    qtys: Vec<u64>,
}

/// How many tables were made, how many of them were refused, and how many are not as they should be. The first of those are shown.
pub fn compare(r: &mut Random, count: u64) -> [u64; 3] {
    let (mut refused, mut different) = (0, 0);
    for _ in 0..count {
        let orders = Orders::any(r);
        refused += u64::from(orders.refusal() != 0);
        // Two rows past the array too.
        let wrong = (0..MAX_ORDERS + 2).find(|&row| orders.ours(row) != orders.plain(row));
        if let Some(row) = wrong {
            different += 1;
            if different <= 5 {
                println!("{orders:?}, row {row}\n  ours:  {:?}\n  plain: {:?}", orders.ours(row), orders.plain(row));
            }
        }
    }
    [count, refused, different]
}

impl Orders {
    /// Up to one order too many, with limits that tie; now and then one slice is shorter than the others.
    fn any(r: &mut Random) -> Orders {
        let n = r.below(MAX_ORDERS as u64 + 2) as usize;
        let mut orders = Orders { is_buy: (0..n).map(|_| r.one_in(2)).collect(), limits: numbers(r, n), qtys: numbers(r, n) };
        match r.below(40) {
            0 => drop(orders.is_buy.pop()),
            1 => drop(orders.limits.pop()),
            2 => drop(orders.qtys.pop()),
            _ => (),
        }
        orders
    }

    fn refusal(&self) -> u8 {
        let n = self.is_buy.len();
        let good = n <= MAX_ORDERS && self.limits.len() == n && self.qtys.len() == n;
        if good {
            0
        } else {
            30
        }
    }

    fn ours(&self, row: usize) -> Row {
        let (sides, sides_len) = (self.is_buy.as_ptr(), self.is_buy.len());
        let (limits, limits_len) = (self.limits.as_ptr(), self.limits.len());
        let (qtys, qtys_len) = (self.qtys.as_ptr(), self.qtys.len());
        // Each pointer goes with its slice's length, and the entry reads no further.
        unsafe { entry_side_totals(sides, sides_len, limits, limits_len, qtys, qtys_len, row) }
    }

    /// The row by document 01's sums in file order.
    fn plain(&self, row: usize) -> Row {
        let refusal = self.refusal();
        let limits: BTreeSet<u64> = if refusal == 0 { self.limits.iter().copied().collect() } else { BTreeSet::new() };
        let none = Row { refusal, count: limits.len(), limit: 0, buy_hi: 0, buy_lo: 0, sell_hi: 0, sell_lo: 0 };
        limits.iter().nth(row).map_or(none, |&p| {
            let buy = self.sum(|i| self.is_buy[i] && self.limits[i] >= p);
            let sell = self.sum(|i| !self.is_buy[i] && self.limits[i] <= p);
            let [buy_hi, buy_lo, sell_hi, sell_lo] = [buy >> 64, buy, sell >> 64, sell].map(|word| word as u64);
            Row { limit: p, buy_hi, buy_lo, sell_hi, sell_lo, ..none }
        })
    }

    fn sum(&self, takes_part: impl Fn(usize) -> bool) -> u128 {
        (0..self.qtys.len()).filter(|&i| takes_part(i)).map(|i| u128::from(self.qtys[i])).sum()
    }
}
