//! `bench`: the same files through the C entry and through the published source, in one run.
//!
//! The source's time has the accounts that the oracle makes for each call and its text in it, as the C entry's has its own reading and
//! writing; each screen is run once. The ratio is the source's time over the C entry's. Last comes the price search beside the one that
//! it replaced.
mod corpus;
mod search;
mod timing;

use corpus::{courses, covered, kinds, records, screened, Kind, FULL, NOW, SHORT, STAGES};
use oracle::random::Random;
use oracle::record::Call;
use oracle::MAX_ORDERS;
use std::env;
use std::process::ExitCode;
use timing::{nanoseconds, SIDES};

fn main() -> ExitCode {
    if env::args().len() > 1 {
        eprintln!("usage: bench");
        return ExitCode::from(2);
    }
    let [ours, source] = SIDES;
    println!("                                {ours:>26}   {source:>26}");
    println!(
        "kind                    records {:>13} {:>12}   {:>13} {:>12}   ratio",
        "files/s", "ns/record", "files/s", "ns/record"
    );
    kinds().iter().for_each(row);
    println!();
    for (name, orders) in [SHORT, FULL] {
        println!("a record of a stage, ns: {name:8}  {ours:>12} {source:>14}   ratio");
        stages(orders);
        println!();
    }
    println!("a clear of so many orders, ns  {ours:>14} {source:>14}   ratio");
    (2..=MAX_ORDERS).step_by(2).for_each(clear);
    println!("\na buy after `SI`, ns            {ours:>13} {source:>14}   ratio");
    cover("no decimals", covered(0, 2000, 1_000_000));
    cover("a product of one word", covered(6, 2_000_000, 1_000_000));
    cover("a product of two words", covered(18, 1 << 63, 1_000_000_000_000_000_000));
    println!();
    search::compare();
    ExitCode::SUCCESS
}

fn row(kind: &Kind) {
    let all: u64 = kind.files.iter().map(|f| records(f)).sum();
    let files = kind.files.len() as f64;
    let [[ours, source]] = nanoseconds([&kind.files]);
    let side = |ns: f64| format!("{:>13.0} {:>12.1}", files * 1e9 / ns, ns / all as f64);
    println!("{:22} {all:>8} {}   {}  {:>6.2}", kind.name, side(ours), side(source), source / ours);
}

/// The time of the courses up to the end of a stage, less that up to its start, for each of its records.
fn stages(orders: usize) {
    let courses = courses(orders);
    let mut sets: [Vec<Vec<u8>>; STAGES.len() + 1] = Default::default();
    for course in &courses {
        let starts = std::iter::once(0).chain(course.ends);
        sets.iter_mut().zip(starts).for_each(|(set, end)| set.push(course.file[..end].to_vec()));
    }
    let times = nanoseconds(sets.each_ref().map(Vec::as_slice));
    for (i, stage) in STAGES.iter().enumerate() {
        let all: usize = courses.iter().map(|course| course.records[i]).sum();
        let [ours, source] = [0, 1].map(|side| (times[i + 1][side] - times[i][side]) / all as f64);
        println!("{stage:>30} {ours:>14.0} {source:>14.0}  {:>6.2}", source / ours);
    }
}

/// The time of a file that ends with a clear, less that of the same file without.
fn clear(orders: usize) {
    let books: Vec<Vec<u8>> = (0..20).map(|n| screened(&mut Random::item(3, n), orders)).collect();
    let cleared = books.iter().map(|book| {
        let mut file = book.clone();
        Call::Clear { now: NOW }.write(&mut file);
        file
    });
    let [with, without] = nanoseconds([&cleared.collect::<Vec<_>>(), &books]);
    let [ours, source] = [0, 1].map(|side| (with[side] - without[side]) / books.len() as f64);
    println!("{orders:>30} {ours:>14.0} {source:>14.0}  {:>6.2}", source / ours);
}

/// The time of a file of buys after `SI`, less that of its header, for each of them.
fn cover(name: &str, [header, file]: [Vec<u8>; 2]) {
    let [with, without] = nanoseconds([&[file], &[header]]);
    let [ours, source] = [0, 1].map(|side| (with[side] - without[side]) / MAX_ORDERS as f64);
    println!("{name:>30} {ours:>14.0} {source:>14.0}  {:>6.2}", source / ours);
}
