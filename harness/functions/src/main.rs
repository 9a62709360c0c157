//! `functions [--seed S] [--cases N]`: the price search and pro-rata through the published source and through ours, on parallel slices
//! and on records, one answer after the other; and as many tests of an order's cover, tables of side totals, shares with their
//! remainders, and numbers of fills. Then a third as many sessions that the source cleared: its cranks must make the number of fills
//! that ours gave. And as many session files, most of a session that just cleared: why each order got its lot.
mod case;
mod causes;
mod cover;
mod cranks;
mod fills;
#[path = "../../compare/src/output.rs"]
mod output;
mod records;
mod shares;
mod slices;
mod table;
mod words;

use case::Case;
use oracle::random::Random;
use oracle::{options, MAX_ORDERS};
use std::collections::BTreeMap;
use std::env;
use std::process::ExitCode;

fn main() -> ExitCode {
    let Some([seed, count]) = options::numbers(env::args().skip(1), [("--seed", 1), ("--cases", 300_000)]) else {
        eprintln!("usage: functions [--seed S] [--cases N]");
        return ExitCode::from(2);
    };
    let different = compare(&mut Random(seed), count);
    let mut r = Random(seed);
    let refused = (0..1000).all(|_| unequal_lengths_are_refused(&mut r));
    println!("unequal lengths: {}", if refused { "refused with 30" } else { "NOT refused with 30" });
    println!("{count} cases, {different} different");
    let [tests, wrong] = cover::compare(&mut Random(seed), count);
    println!("{tests} tests of cover, {wrong} different");
    let [tables, turned_away, bad] = table::compare(&mut Random(seed), count);
    println!("{tables} tables, {turned_away} of them refused, {bad} different");
    let [shares, lists, uneven] = shares::compare(&mut Random(seed), count);
    println!("{shares} shares with their remainders, {lists} lists of them, {uneven} different");
    let [books, no_figure, tied, miscounted] = fills::compare(&mut Random(seed), count);
    println!("{books} numbers of fills, {no_figure} of them refused, {tied} of lots that end together, {miscounted} different");
    let sessions = count / 3;
    let unlike = cranks::compare(&mut Random(seed), sessions);
    println!("{sessions} cleared sessions, {unlike} different");
    let [questions, untrue] = causes::compare(&mut Random(seed), sessions);
    println!("{questions} causes of lots asked on {sessions} files, {untrue} different");
    ExitCode::from(u8::from(different + wrong + bad + uneven + miscounted + unlike + untrue != 0 || !refused))
}

/// Shows how often each kind of answer was seen and the first differences.
fn compare(r: &mut Random, count: u64) -> u64 {
    let mut seen = BTreeMap::new();
    let mut different = 0;
    for _ in 0..count {
        let case = Case::any(r);
        let (source, slices, records) = (oracle::functions::answer(&case.words()), slices::answer(&case), records::answer(&case));
        *seen.entry(kind(&case, &source)).or_insert(0u64) += 1;
        if source != slices || source != records {
            different += 1;
            if different <= 5 {
                println!("{}\n  source:  {source}\n  slices:  {slices}\n  records: {records}", case.words());
            }
        }
    }
    seen.iter().for_each(|(what, n)| println!("{n:8} {what}"));
    different
}

/// What kind of answer it is, for the counts.
fn kind(case: &Case, text: &str) -> String {
    let name = match case {
        Case::Price { .. } => "price",
        Case::ProRata { .. } => "pro-rata",
    };
    let what = if text.starts_with("refused") || text == "NoCross" { text } else { "figures" };
    format!("{name} {what}")
}

/// Slices of unequal length, which the source cannot be given.
fn unequal_lengths_are_refused(r: &mut Random) -> bool {
    let n = r.below(MAX_ORDERS as u64 + 1) as usize;
    let m = (n + 1 + r.below(MAX_ORDERS as u64) as usize) % (MAX_ORDERS + 1);
    let (one, other) = (vec![1; n], vec![1; m]);
    let sides = vec![true; n];
    let all = [
        slices::price(&sides, &other, &one, 0, 0),
        slices::price(&sides, &one, &other, 0, 0),
        slices::pro_rata(0, &other, &one, n),
        slices::pro_rata(0, &one, &one, m),
    ];
    all.iter().all(|a| a == "refused 30")
}
