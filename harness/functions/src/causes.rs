//! Why each order got its lot, against the causes that the source's own `compute_clear` and pro-rata give, on files of all endings.
use crate::output::Output;
use host::{why, why_in_session_file, Cause};
use oracle::generate::{any_calls, cleared, course, damage};
use oracle::random::Random;
use oracle::record::Call;
use oracle::{MAX_FILE, MAX_ORDERS};
use std::collections::BTreeMap;

/// A line, or a refusal's number.
type Answer = Result<String, u8>;

/// How many questions were asked on so many files, and how many of them were answered differently. How often each kind of answer came and
/// the first differences are shown.
pub fn compare(r: &mut Random, count: u64) -> [u64; 2] {
    let mut seen = BTreeMap::new();
    let (mut questions, mut different) = (0, 0);
    let mut output = Output::new();
    for _ in 0..count {
        // No room behind it, so that a tool that watches memory sees a read past its end.
        let file = file(r).into_boxed_slice();
        let causes = oracle::causes(&file);
        for order in orders(&causes) {
            let source = answer(&causes, order);
            questions += 1;
            *seen.entry(kind(&source)).or_insert(0u64) += 1;
            if let Some(ours) = other_answer(&mut output, &file, order, &source) {
                different += 1;
                if different <= 5 {
                    println!("order {order} of {}\n  source: {source:?}\n  ours:   {ours}", hex(&file));
                }
            }
        }
    }
    seen.iter().for_each(|(what, n)| println!("{n:8} {what}"));
    [questions, different]
}

/// Every order, one past the book, and some far past it, which must not be cut to fewer bits.
fn orders(causes: &Result<Vec<String>, u8>) -> impl Iterator<Item = u64> {
    let count = causes.as_ref().map_or(1, Vec::len) as u64;
    (0..=count).chain([MAX_ORDERS as u64, 256, 1 << 32, u64::MAX])
}

fn answer(causes: &Result<Vec<String>, u8>, order: u64) -> Answer {
    let line = |lines: &Vec<String>| usize::try_from(order).ok().and_then(|i| lines.get(i)).cloned();
    causes.as_ref().map_err(|&refusal| refusal).and_then(|lines| line(lines).ok_or(12))
}

/// The word of a line, with the number that tells its kind.
fn kind(answer: &Answer) -> String {
    let line = match answer {
        Ok(line) => line,
        Err(refusal) => return format!("refused {refusal:>2}"),
    };
    match line.split_ascii_whitespace().collect::<Vec<_>>()[..] {
        ["excluded", _, kind] => format!("excluded {kind}"),
        ["residue", _, _, turn] => format!("residue, turn {turn:>2}"),
        ["share", _, "0"] => "share of 0".to_string(),
        [word, ..] => word.to_string(),
        [] => unreachable!("an empty line"),
    }
}

/// What is answered in another way, if anything is: with room to spare, just enough, one byte too little, none; or as a value.
fn other_answer(output: &mut Output, file: &[u8], order: u64, source: &Answer) -> Option<String> {
    let length = source.as_ref().map_or(1, String::len);
    for room in [length + 40, length, length - 1, 0] {
        let ours = why_in_session_file(file, order, output.lend(room));
        if !is_right(ours, output, source, room) {
            return Some(format!("{ours} with room for {room}, and in it {}", output.given_back().escape_ascii()));
        }
    }
    let value = why(file, order).map(|cause| line(order, cause)).map_err(|refusal| refusal.number());
    (value != *source).then(|| format!("{value:?} as a value"))
}

/// A line at the start with every byte after it as it was, or a refusal with the whole output as it was.
fn is_right(ours: i64, output: &Output, source: &Answer, room: usize) -> bool {
    let (number, written) = match source {
        Ok(line) if line.len() <= room => (line.len() as i64, line.as_str()),
        Ok(_) => (-27, ""),
        Err(refusal) => (-i64::from(*refusal), ""),
    };
    ours == number && output.given_back().starts_with(written.as_bytes()) && output.is_untouched_from(written.len())
}

fn line(order: u64, cause: Cause) -> String {
    match cause {
        Cause::Unrevealed => format!("unrevealed {order}\n"),
        Cause::Excluded(kind) => format!("excluded {order} {kind}\n"),
        Cause::Priced { limit, price } => format!("priced {order} {limit} {price}\n"),
        Cause::Share(lot) => format!("share {order} {lot}\n"),
        Cause::Residue { lot, turn } => format!("residue {order} {lot} {turn}\n"),
    }
}

/// Mostly of a session that just cleared, many of them with calls after; else a file that may end in any way.
fn file(r: &mut Random) -> Vec<u8> {
    let mut file = just_cleared(r);
    match r.below(24) {
        0 => return course(r),
        1 => return any_calls(r),
        2 => damage(r, &mut file),
        3 => file.truncate(r.below(file.len() as u64 + 1) as usize),
        4 if r.one_in(20) => file.clear(),
        5..=12 => (0..1 + r.below(3)).for_each(|_| crank(r, &mut file)),
        13 | 14 => (0..1 + r.below(3)).for_each(|_| refused(r, &mut file)),
        15 if r.one_in(40) => fill(&mut file, MAX_FILE + r.below(2) as usize),
        _ => (),
    }
    file
}

/// Books are made until one clears, with other calls among the screens or without.
fn just_cleared(r: &mut Random) -> Vec<u8> {
    let noise = r.pick(&[0, 0, 0, 20, 50]);
    std::iter::repeat_with(|| cleared(r, noise)).flatten().next().expect("an endless row").0
}

/// A crank of a small allowance, which leaves most sessions Allocating.
fn crank(r: &mut Random, file: &mut Vec<u8>) {
    Call::Allocate { now: 0, max_fills: r.pick(&[0, 1, 1, 2]) }.write(file);
}

/// A call that the phase refuses: a screen of an order anew, or of any other kind.
fn refused(r: &mut Random, file: &mut Vec<u8>) {
    let order = r.below(MAX_ORDERS as u64) as u8;
    match r.below(4) {
        0 => Call::Clear { now: 0 },
        1 => Call::Settle { fill: 0 },
        _ => Call::Screen { now: 0, order, side: 1, verdict: r.pick(&[0, 1, 6]), id: Some([1; 16]) },
    }
    .write(file);
}

/// Calls that change nothing, up to a length: cranks that make no fill, until whole settles of six bytes fit, which the phase refuses.
fn fill(file: &mut Vec<u8>, length: usize) {
    while !(length - file.len()).is_multiple_of(6) {
        Call::Allocate { now: 0, max_fills: 0 }.write(file);
    }
    while file.len() < length {
        Call::Settle { fill: 0 }.write(file);
    }
}

fn hex(file: &[u8]) -> String {
    file.iter().map(|byte| format!("{byte:02x}")).collect()
}
