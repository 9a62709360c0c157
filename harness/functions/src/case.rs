//! Random and edge cases of the two public functions of credit-math.
use oracle::random::Random;
use oracle::MAX_ORDERS;

pub enum Case {
    Price { is_buy: Vec<bool>, limits: Vec<u64>, qtys: Vec<u64>, reserve: u64, reference: u64 },
    ProRata { total: u64, ids: Vec<u64>, qtys: Vec<u64> },
}

impl Case {
    /// Lengths from 0 to one past the limit.
    pub fn any(r: &mut Random) -> Case {
        let n = r.below(MAX_ORDERS as u64 + 2) as usize;
        if r.one_in(2) {
            price(r, n)
        } else {
            pro_rata(r, n)
        }
    }

    /// The oracle's words for it (`oracle::functions`).
    pub fn words(&self) -> String {
        match self {
            Case::Price { is_buy, limits, qtys, reserve, reference } => {
                let side = |i: usize| if is_buy[i] { 'B' } else { 'S' };
                let order = |i| format!(" {}:{}@{}", side(i), qtys[i], limits[i]);
                format!("price {reserve} {reference}") + &(0..is_buy.len()).map(order).collect::<String>()
            }
            Case::ProRata { total, ids, qtys } => {
                let bid = |i: usize| format!(" {}:{}", ids[i], qtys[i]);
                format!("prorata {total}") + &(0..ids.len()).map(bid).collect::<String>()
            }
        }
    }
}

fn price(r: &mut Random, n: usize) -> Case {
    let limits = numbers(r, n);
    let reserve = if r.one_in(3) { 0 } else { near(r, &limits) };
    let reference = near(r, &limits);
    let is_buy = (0..n).map(|_| r.one_in(2)).collect();
    Case::Price { is_buy, qtys: numbers(r, n), limits, reserve, reference }
}

/// Totals at the sum, beside it and below it.
pub fn pro_rata(r: &mut Random, n: usize) -> Case {
    let qtys = numbers(r, n);
    let sum: u128 = qtys.iter().map(|&q| u128::from(q)).sum();
    let total = match r.below(6) {
        0 => 0,
        1 => sum.wrapping_sub(1) as u64,
        2 => sum as u64,
        3 => sum.wrapping_add(1) as u64,
        4 => r.word(),
        _ => (u128::from(r.word()) % (sum + 1)) as u64,
    };
    Case::ProRata { total, ids: numbers(r, n), qtys }
}

/// Half the time a limit or one beside it.
fn near(r: &mut Random, limits: &[u64]) -> u64 {
    if limits.is_empty() || r.one_in(2) {
        return number(r, 12);
    }
    r.pick(limits).wrapping_add(r.below(3)).wrapping_sub(1)
}

/// Numbers that tie often, or are all the same.
pub fn numbers(r: &mut Random, n: usize) -> Vec<u64> {
    let small = r.pick(&[2, 4, 12, 1000]);
    if r.one_in(8) {
        return vec![number(r, small); n];
    }
    (0..n).map(|_| number(r, small)).collect()
}

/// A number of one of the kinds that matter: edges of 64 bits, small ones that tie, any.
pub fn number(r: &mut Random, small: u64) -> u64 {
    match r.below(8) {
        0 => r.pick(&[0, 1, 2, u64::MAX, u64::MAX - 1, 1 << 63, (1 << 63) - 1, 1 << 32]),
        1 => r.word(),
        2 => r.word() >> r.below(64),
        _ => r.below(small),
    }
}
