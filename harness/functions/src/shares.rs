//! A share with its remainder, against arithmetic of 128 bits; and the remainders of whole lists, against the units that the source's lots
//! have beyond the shares.
use crate::case::{self, number, Case};
use oracle::random::Random;
use oracle::MAX_ORDERS;

/// What the entry answers: quotient and remainder, each in two words.
#[repr(C)]
struct Words {
    quotient_hi: u64,
    quotient_lo: u64,
    remainder_hi: u64,
    remainder_lo: u64,
}

extern "C" {
    /// The sum in two words.
    fn entry_floor_share(total: u64, qty: u64, sum_hi: u64, sum_lo: u64) -> Words;
}

/// A quantity's part in a total.
#[derive(Clone, Copy, Debug)]
struct Part {
    total: u64,
    qty: u64,
    sum: u128,
}

/// How many shares were made, how many lists were shared out, and how many of both are not as they should be. The first of those are shown.
pub fn compare(r: &mut Random, count: u64) -> [u64; 3] {
    let (mut shares, mut lists, mut different) = (0, 0, 0);
    let mut test = |part: Part| {
        shares += 1;
        if part.ours() != part.plain() {
            different += 1;
            if different <= 5 {
                println!("{part:?}\n  ours:     {:?}\n  128 bits: {:?}", part.ours(), part.plain());
            }
        }
    };
    edges(&mut test);
    (0..count).for_each(|_| test(Part::any(r)));
    for _ in 0..count {
        let n = r.below(MAX_ORDERS as u64 + 1) as usize;
        let case = case::pro_rata(r, n);
        // A total above the sum has no shares.
        let Ok(lots) =
            oracle::functions::answer(&case.words()).split_ascii_whitespace().map(str::parse).collect::<Result<Vec<u64>, _>>()
        else {
            continue;
        };
        lists += 1;
        if !adds_up(&case, &lots) {
            different += 1;
            if different <= 5 {
                println!("{}\n  lots of the source: {lots:?}", case.words());
            }
        }
    }
    [shares, lists, different]
}

impl Part {
    /// Totals and sums of any size, often of one word, about the whole sum or about the product.
    fn any(r: &mut Random) -> Part {
        let (total, qty) = (number(r, 1000), number(r, 1000));
        let about = match r.below(5) {
            0 => u128::from(total),
            1 => u128::from(total) * u128::from(qty),
            2 => u128::from(total) + u128::from(qty),
            3 => u128::from(number(r, 1000)),
            _ => u128::from(r.word()) << 64 >> r.below(128),
        };
        Part { total, qty, sum: about.wrapping_add(r.below(3).into()).wrapping_sub(1) }
    }

    fn ours(self) -> (u128, u128) {
        // Numbers alone go over.
        let w = unsafe { entry_floor_share(self.total, self.qty, (self.sum >> 64) as u64, self.sum as u64) };
        (double(w.quotient_hi, w.quotient_lo), double(w.remainder_hi, w.remainder_lo))
    }

    /// By 0 the quotient is 0 and the remainder the product.
    fn plain(self) -> (u128, u128) {
        let product = u128::from(self.total) * u128::from(self.qty);
        (product.checked_div(self.sum).unwrap_or(0), product.checked_rem(self.sum).unwrap_or(product))
    }
}

fn double(hi: u64, lo: u64) -> u128 {
    u128::from(hi) << 64 | u128::from(lo)
}

/// Every total and quantity at an edge, by sums of every pair of edges.
fn edges(test: &mut impl FnMut(Part)) {
    let edges = [0, 1, 2, 3, (1 << 32) - 1, 1 << 32, (1 << 63) - 1, 1 << 63, u64::MAX - 1, u64::MAX];
    for (total, qty) in edges.into_iter().flat_map(|total| edges.map(|qty| (total, qty))) {
        for (hi, lo) in edges.into_iter().flat_map(|hi| edges.map(|lo| (hi, lo))) {
            test(Part { total, qty, sum: double(hi, lo) });
        }
    }
}

/// Each of the source's lots is its share or one unit more, and all units times the sum are all remainders added.
fn adds_up(case: &Case, lots: &[u64]) -> bool {
    let Case::ProRata { total, qtys, .. } = case else { unreachable!("a list to share out") };
    let sum = qtys.iter().map(|&qty| u128::from(qty)).sum();
    let parts: Vec<(u128, u128)> = qtys.iter().map(|&qty| Part { total: *total, qty, sum }.ours()).collect();
    let units: Vec<u128> = parts.iter().zip(lots).map(|(part, &lot)| u128::from(lot).wrapping_sub(part.0)).collect();
    let taken: u128 = parts.iter().map(|part| part.1).sum();
    units.len() == qtys.len() && units.iter().all(|&unit| unit <= 1) && units.iter().sum::<u128>() * sum == taken
}
