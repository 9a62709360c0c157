//! The listing of a file.
use crate::engine;
use crate::reader::{Reader, MAX_FILE};
use std::fmt::Write;

/// The listing of a session file.
pub fn listing(file: &[u8]) -> String {
    list(file, Reader::new(file, false), false)
}

/// The listing, with the source's session after each call as a line `N # ..`. For hunting differences.
pub fn listing_with_states(file: &[u8]) -> String {
    list(file, Reader::new(file, false), true)
}

/// The listing, with each screen run once and not both ways. For timing.
pub fn quick_listing(file: &[u8]) -> String {
    list(file, Reader::new(file, true), false)
}

fn list(file: &[u8], mut reader: Reader, states: bool) -> String {
    if file.len() > MAX_FILE {
        return "0 refused 26\nend none\n".to_string();
    }
    let mut out = String::new();
    let mut number = 0;
    while !reader.rest.is_empty() {
        match reader.next_record() {
            Ok(words) => words.iter().for_each(|w| line(&mut out, number, w)),
            Err(refusal) => {
                line(&mut out, number, &format!("refused {refusal}"));
                break;
            }
        }
        if let (true, true, Some(state)) = (states, reader.calls, &reader.state) {
            line(&mut out, number, &format!("# {}", engine::digest(&state.session)));
        }
        number += 1;
    }
    out + &end(&reader)
}

fn line(out: &mut String, number: usize, words: &str) {
    writeln!(out, "{number} {words}").expect("a string takes all");
}

fn end(reader: &Reader) -> String {
    match &reader.state {
        None => "end none\n".to_string(),
        Some(s) => format!("end {} {}\n", s.session.phase as u8, s.session.skipped_fills.count_ones()),
    }
}
