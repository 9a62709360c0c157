//! The files that are timed.
use oracle::generate::long;
use oracle::random::Random;
use oracle::record::{Call, Header, Order};
use oracle::MAX_ORDERS;

pub struct Kind {
    pub name: &'static str,
    pub files: Vec<Vec<u8>>,
}

pub fn kinds() -> Vec<Kind> {
    let whole = |orders| courses(orders).into_iter().map(|course| course.file).collect();
    let thousands = (0..4).map(|n| long(&mut Random::item(2, n))).collect();
    vec![
        Kind { name: SHORT.0, files: whole(SHORT.1) },
        Kind { name: FULL.0, files: whole(FULL.1) },
        Kind { name: "thousands of records", files: thousands },
    ]
}

/// The two kinds that are whole courses, with their number of orders.
pub const SHORT: (&str, usize) = ("short (4 orders)", 4);
pub const FULL: (&str, usize) = ("full book", MAX_ORDERS);

/// The stages of a course.
pub const STAGES: [&str; 7] = ["header", "order", "screen", "clear", "allocate", "settle", "finish"];

/// A file, and for each stage where its records end and how many they are.
pub struct Course {
    pub file: Vec<u8>,
    pub ends: [usize; STAGES.len()],
    pub records: [usize; STAGES.len()],
}

pub fn courses(orders: usize) -> Vec<Course> {
    (0..200).map(|n| course(&mut Random::item(1, n), orders)).collect()
}

/// A whole course: a book, its screens, a clear, cranks of three fills, each fill settled, the print.
fn course(r: &mut Random, orders: usize) -> Course {
    let mut file = Vec::new();
    let mut ends = [0; STAGES.len()];
    HEADER.write(&mut file);
    ends[0] = file.len();
    book(r, orders, &mut file);
    ends[1] = file.len();
    screens(orders, &mut file);
    ends[2] = file.len();
    Call::Clear { now: NOW }.write(&mut file);
    ends[3] = file.len();
    let cranks = orders.div_ceil(3);
    (0..cranks).for_each(|_| Call::Allocate { now: NOW, max_fills: 3 }.write(&mut file));
    ends[4] = file.len();
    let fills = oracle::session_after(&file).map_or(0, |s| s.session.fills.len());
    (0..fills as u32).for_each(|fill| Call::Settle { fill }.write(&mut file));
    ends[5] = file.len();
    Call::Finish { now: NOW }.write(&mut file);
    ends[6] = file.len();
    Course { file, ends, records: [1, orders, orders, 1, cranks, fills, 1] }
}

/// A book of buys and sells in turn that all cross, no two limits alike, every order screened. Nothing is cleared yet.
pub fn screened(r: &mut Random, orders: usize) -> Vec<u8> {
    let mut file = Vec::new();
    HEADER.write(&mut file);
    book(r, orders, &mut file);
    screens(orders, &mut file);
    file
}

fn book(r: &mut Random, orders: usize, file: &mut Vec<u8>) {
    for i in 0..orders as u8 {
        let side = i % 2;
        let limit = if side == 0 { 2000 - u64::from(i) } else { 1000 + u64::from(i) };
        let qty = 1 + r.below(1_000_000);
        Order { owner: [i + 1; 32], side, escrowed: 1, revealed: true, limit, qty }.write(file);
    }
}

/// `SI` alone, and with as many buys of that limit and quantity as a book holds, whose escrows cover any amount.
pub fn covered(decimals: u8, limit: u64, qty: u64) -> [Vec<u8>; 2] {
    let mut file = Vec::new();
    Header { decimals: Some(decimals), ..HEADER }.write(&mut file);
    let alone = file.clone();
    for i in 0..MAX_ORDERS as u8 {
        Order { owner: [i + 1; 32], side: 0, escrowed: u64::MAX, revealed: true, limit, qty }.write(&mut file);
    }
    [alone, file]
}

fn screens(orders: usize, file: &mut Vec<u8>) {
    for i in 0..orders as u8 {
        Call::Screen { now: NOW, order: i, side: i % 2, verdict: 0, id: Some([i + 1; 16]) }.write(file);
    }
}

pub const NOW: i64 = 150;

const HEADER: Header = Header {
    reveal_end: 100,
    rofr_window: 0,
    settle_deadline: 200,
    max_cash: 1000,
    min_reveals: 2,
    forced: false,
    rofr_authority: [0; 32],
    mark: true,
    reserve: 900,
    reference: 1500,
    policy: 1,
    band_bps: 100,
    decimals: None,
};

/// How many records the source's listing has lines of.
pub fn records(file: &[u8]) -> u64 {
    let listing = oracle::listing(file);
    let last = listing.lines().rev().nth(1).and_then(|line| line.split(' ').next());
    1 + last.and_then(|n| n.parse::<u64>().ok()).expect("a numbered line")
}
