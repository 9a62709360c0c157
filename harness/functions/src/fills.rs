//! The number of fills from the lots alone, against a plain count of the sums here in 128 bits.
use crate::case::{number, numbers};
use host::Refusal;
use oracle::random::Random;
use oracle::MAX_ORDERS;
use std::collections::BTreeSet;

/// What C is answered: a refusal or 0, and the number, 0 with a refusal.
#[repr(C)]
#[derive(Clone, Copy, Debug, PartialEq)]
struct Answer {
    refusal: u8,
    count: u64,
}

extern "C" {
    /// Lots and sides, each as a pointer with its length. Of the static library `fills`, which `host` links.
    fn fill_count(_: *const u64, _: usize, _: *const u8, _: usize) -> Answer;
}

impl Answer {
    fn of(answer: Result<u64, Refusal>) -> Answer {
        match answer {
            Ok(count) => Answer { refusal: 0, count },
            Err(refusal) => Answer { refusal: refusal.number(), count: 0 },
        }
    }
}

#[derive(Debug)]
struct Book {
    lots: Vec<u64>,
    sides: Vec<u8>,
}

/// How many books were made, how many of them were refused, in how many others a buy lot and a sell lot end together, and how many
/// were counted differently. The first of those are shown.
pub fn compare(r: &mut Random, count: u64) -> [u64; 4] {
    let (mut refused, mut tied, mut different) = (0, 0, 0);
    for _ in 0..count {
        let book = Book::any(r);
        let plain = book.plain();
        match plain {
            Ok(count) => tied += u64::from(count < book.lots.iter().filter(|&&lot| lot > 0).count() as u64),
            Err(_) => refused += 1,
        }
        if book.ours() != [Answer::of(plain); 2] {
            different += 1;
            if different <= 5 {
                println!("{book:?}\n  ours, in C and in Rust: {:?}\n  plain: {plain:?}", book.ours());
            }
        }
    }
    [count, refused, tied, different]
}

impl Book {
    /// Up to one entry too many. Half the books have one total on both sides; now and then a side is no side, or a slice is shorter.
    fn any(r: &mut Random) -> Book {
        let n = r.below(MAX_ORDERS as u64 + 2) as usize;
        let mut book = if r.one_in(2) { even(r, n / 2) } else { uneven(r, n) };
        for side in &mut book.sides {
            if r.one_in(200) {
                *side = 2 + r.below(254) as u8;
            }
        }
        let shorter = r.below(n as u64 + 1) as usize;
        match r.below(40) {
            0 => book.lots.truncate(shorter),
            1 => book.sides.truncate(shorter),
            _ => (),
        }
        book
    }

    /// As C has it and as `host` has it.
    fn ours(&self) -> [Answer; 2] {
        let (lots, sides) = (&self.lots, &self.sides);
        // Each pointer goes with its slice's length, and the library reads no further.
        let c = unsafe { fill_count(lots.as_ptr(), lots.len(), sides.as_ptr(), sides.len()) };
        [c, Answer::of(host::fill_count(lots, sides))]
    }

    /// By the words of document 02.
    fn plain(&self) -> Result<u64, Refusal> {
        if self.lots.len() > MAX_ORDERS || self.lots.len() != self.sides.len() {
            return Err(Refusal::BadLength);
        }
        if self.sides.iter().any(|&side| side > 1) {
            return Err(Refusal::BadField);
        }
        let sums: BTreeSet<u128> = [0, 1].into_iter().flat_map(|side| self.sums(side)).collect();
        Ok(sums.len() as u64)
    }

    /// The partial sums of a side's lots above 0.
    fn sums(&self, side: u8) -> Vec<u128> {
        let lots = self.lots.iter().zip(&self.sides).filter(|&(&lot, &s)| s == side && lot > 0);
        lots.scan(0, |sum, (&lot, _)| {
            *sum += u128::from(lot);
            Some(*sum)
        })
        .collect()
    }
}

/// Any lots on any sides, at times most or all of them on one.
fn uneven(r: &mut Random, n: usize) -> Book {
    let buys = r.pick(&[0, 10, 50, 50, 50, 90, 100]);
    Book { lots: lots(r, n), sides: (0..n).map(|_| u8::from(!r.chance(buys))).collect() }
}

/// As many sells as buys, of the same total: the sells' lots are the buys' with parts moved from one to another. Each side is laid into
/// the book in its order.
fn even(r: &mut Random, n: usize) -> Book {
    let buys = lots(r, n);
    let mut sells = buys.clone();
    for _ in 0..r.below(n as u64 + 1) {
        let [from, to] = [0; 2].map(|_| r.below(n as u64) as usize);
        let part = number(r, 4).min(sells[from]).min(u64::MAX - sells[to]);
        sells[from] -= part;
        sells[to] += part;
    }
    let mut left = [buys, sells].map(Vec::into_iter);
    let mut book = Book { lots: Vec::new(), sides: Vec::new() };
    while book.lots.len() < 2 * n {
        let side = r.below(2) as u8;
        if let Some(lot) = left[usize::from(side)].next() {
            book.lots.push(lot);
            book.sides.push(side);
        }
    }
    book
}

/// Numbers that tie often, at times counted down from 2^64 - 1, with zeros among them.
fn lots(r: &mut Random, n: usize) -> Vec<u64> {
    let down = if r.one_in(3) { u64::MAX } else { 0 };
    numbers(r, n).into_iter().map(|x| if r.one_in(5) { 0 } else { down ^ x }).collect()
}
