//! How often each kind of line was seen in the source's listings.
use std::collections::BTreeMap;

#[derive(Default)]
pub struct Counts(BTreeMap<String, u64>);

impl Counts {
    pub fn add(&mut self, listing: &str) {
        for line in listing.lines() {
            *self.0.entry(kind(line)).or_default() += 1;
        }
    }

    pub fn show(&self) {
        self.0.iter().for_each(|(kind, n)| println!("{n:10}  {kind}"));
        let never: Vec<String> = all_kinds().into_iter().filter(|k| !self.0.contains_key(k)).collect();
        match never.is_empty() {
            true => println!("every kind of line and refusal that a file can have was seen"),
            false => println!("never seen: {}", never.join(", ")),
        }
    }
}

/// The word of a line, with the numbers that tell its kind.
fn kind(line: &str) -> String {
    let words: Vec<&str> = line.split(' ').collect();
    match words[..] {
        ["end", phase, ..] => format!("end {phase}"),
        [_, "screen", _, exclusion] => format!("screen {exclusion}"),
        [_, "skip", _, _, reason] => format!("skip {reason}"),
        [_, "print", _, _, _, forced, policy, partial] => format!("print forced {forced} policy {policy} partial {partial}"),
        [_, word @ ("failed" | "refused" | "phase"), ..] => format!("{word} {}", words[2..].join(" ")),
        [_, word, ..] => word.to_string(),
        _ => line.to_string(),
    }
}

/// What the documents let a file come to. 9 and 27 to 30 are not among it, nor is phase 0.
fn all_kinds() -> Vec<String> {
    let numbered = |word: &str, numbers: &[u8]| numbers.iter().map(|n| format!("{word} {n}")).collect::<Vec<_>>();
    let mut all: Vec<String> =
        ["open", "order", "clear", "fill", "rofr", "close", "settle", "none", "end none"].map(String::from).to_vec();
    all.extend(numbered("screen", &[0, 1, 2, 3, 4, 5, 6, 7, 8]));
    all.extend(numbered("failed", &[1, 2, 3, 4]));
    all.extend(numbered("skip", &[1, 2, 3, 4, 5, 6]));
    all.extend(numbered("end", &[1, 2, 3, 4, 5, 6, 7]));
    all.extend((1..=26).chain([31]).filter(|n| *n != 9).map(|n| format!("refused {n}")));
    let phases = ["1 6", "1 7", "2 3", "2 4", "2 6", "3 4", "3 6", "4 5", "4 6", "7 2", "7 6"];
    all.extend(phases.map(|p| format!("phase {p}")));
    for forced in [0, 1] {
        for policy in [0, 1, 2, 3] {
            all.extend([0, 1].map(|partial| format!("print forced {forced} policy {policy} partial {partial}")));
        }
    }
    all
}
