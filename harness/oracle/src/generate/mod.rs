//! Session files made at random, steered by the source itself: the session is kept beside the bytes, and most calls are the one that
//! leads on from there.
mod book;
mod calls;
mod cover;
mod damage;
mod style;

use crate::engine::{self, Answer, State};
use crate::random::Random;
use auction_engine::Phase;
use style::Style;

pub use damage::damage;

/// The most calls up to a clear.
const MOST_CALLS: usize = 100;

/// File `n` of a seed: a course, at times damaged.
pub fn file(seed: u64, n: u64) -> Vec<u8> {
    let r = &mut Random::item(seed, n);
    let mut out = course(r);
    if r.chance(12) {
        damage(r, &mut out);
    }
    out
}

/// A header, orders, and the calls that lead to the end of the session, with others among them.
pub fn course(r: &mut Random) -> Vec<u8> {
    let style = Style::any(r);
    with_style(r, &style)
}

/// A header, orders, and any calls at all.
pub fn any_calls(r: &mut Random) -> Vec<u8> {
    let style = Style { noise: 100, ..Style::any(r) };
    with_style(r, &style)
}

/// A header, orders, and calls up to the longest file: thousands of records. Calls that would end the session are mostly left out.
pub fn long(r: &mut Random) -> Vec<u8> {
    let style = Style::any(r);
    let mut out = book::book(r, &style);
    let Some(mut state) = crate::session_after(&out) else { return out };
    loop {
        let before = (out.len(), state.session.clone());
        let ended = has_ended(&state);
        let call = calls::call(r, &style, &state);
        call.write(&mut out);
        engine::run(&mut state, &call);
        if out.len() > crate::MAX_FILE {
            out.truncate(before.0);
            return out;
        }
        if has_ended(&state) && !ended && !r.one_in(2000) {
            out.truncate(before.0);
            state.session = before.1;
        }
    }
}

/// A file whose session just cleared, and that session: of a book whose orders were screened in turn, some of them excluded, with so many
/// percent of other calls among the screens. Nothing where a record is turned away, the session fails, or it does not clear. Without other
/// calls none is refused.
pub fn cleared(r: &mut Random, noise: u64) -> Option<(Vec<u8>, State)> {
    let style = Style { noise, ..Style::any(r) };
    let mut file = book::book(r, &style);
    let mut state = crate::session_after(&file)?;
    state.quick = true;
    for _ in 0..MOST_CALLS {
        let call = calls::call(r, &style, &state);
        call.write(&mut file);
        let is_done = matches!(engine::run(&mut state, &call), Answer::Done(_));
        match state.session.phase {
            Phase::Allocating => return Some((file, state)),
            Phase::Reveal | Phase::Clearing if is_done || noise > 0 => (),
            _ => return None,
        }
    }
    None
}

fn with_style(r: &mut Random, style: &Style) -> Vec<u8> {
    let mut out = book::book(r, style);
    if let Some(state) = crate::session_after(&out) {
        calls(r, style, state, &mut out);
    }
    out
}

/// Calls until the session has ended, and a few more.
fn calls(r: &mut Random, style: &Style, mut state: State, out: &mut Vec<u8>) {
    let mut after = r.below(6);
    for _ in 0..10 + r.below(100) {
        if has_ended(&state) {
            if after == 0 {
                return;
            }
            after -= 1;
        }
        let call = calls::call(r, style, &state);
        call.write(out);
        engine::run(&mut state, &call);
    }
}

fn has_ended(state: &State) -> bool {
    matches!(state.session.phase, Phase::Printed | Phase::Failed)
}
