//! Why an order got its lot, behind safe functions.
use crate::Refusal;
use std::str;

mod c {
    extern "C" {
        pub fn why_in_session_file(input: *const u8, input_len: usize, order: u64, output: *mut u8, output_len: usize) -> i64;
    }
}

/// Why an order got its lot: the first of these that applies.
#[derive(Clone, Copy, Debug, PartialEq, Eq)]
pub enum Cause {
    /// It was not revealed.
    Unrevealed,
    /// A screen excluded it, of the kind that the `screen` line says, 1 to 8.
    Excluded(u8),
    /// Its limit is on the wrong side of the price.
    Priced { limit: u64, price: u64 },
    /// The lot is its share alone.
    Share(u64),
    /// The lot is its share and a unit of the residue, which came to it in this turn on its side, counted from 1.
    Residue { lot: u64, turn: u64 },
}

/// The longest line, in bytes: of a limit and a price, with their words and an order's number of two digits.
const MAX_LINE: usize = 52;

/// Why an order of the session that a file ends with got its lot. The session must have cleared and not gone on: in any other phase than
/// Allocating the refusal is `Refusal::WrongPhase`.
///
/// ```
/// use host::{why, Cause, Refusal};
/// let file = std::fs::read(concat!(env!("CARGO_MANIFEST_DIR"), "/../../examples/case-l.session")).unwrap();
/// // Up to its clear.
/// let cleared = &file[..464];
/// assert_eq!(why(cleared, 0), Ok(Cause::Residue { lot: 5, turn: 1 }));
/// assert_eq!(why(cleared, 1), Ok(Cause::Share(2)));
/// assert_eq!(why(cleared, 4), Err(Refusal::NoOrder));
/// assert_eq!(why(&file, 0), Err(Refusal::WrongPhase));
/// ```
pub fn why(file: &[u8], order: u64) -> Result<Cause, Refusal> {
    let mut line = [0; MAX_LINE];
    let length = why_into(file, order, &mut line)?;
    Ok(cause(&line[..length]))
}

/// Its line into a lent output, as `residue 0 5 1` and a newline: the length of the line, with the bytes after it untouched. A refusal
/// leaves the whole output as it was.
pub fn why_into(file: &[u8], order: u64, output: &mut [u8]) -> Result<usize, Refusal> {
    let answer = why_in_session_file(file, order, output);
    usize::try_from(answer).map_err(|_| Refusal::of(answer.unsigned_abs() as u8))
}

/// The C entry as it is: the length of the line, or a refusal's number negated.
pub fn why_in_session_file(input: &[u8], order: u64, output: &mut [u8]) -> i64 {
    // Each pointer goes with its slice's length; the slices are lent for the call alone and cannot overlap.
    unsafe { c::why_in_session_file(input.as_ptr(), input.len(), order, output.as_mut_ptr(), output.len()) }
}

/// The cause that a line of the library says.
fn cause(line: &[u8]) -> Cause {
    let words: Vec<&str> = str::from_utf8(line).expect("letters and digits").split_ascii_whitespace().collect();
    let figure = |word: &str| word.parse().expect("a figure of 64 bits");
    match words[..] {
        ["unrevealed", _] => Cause::Unrevealed,
        ["excluded", _, kind] => Cause::Excluded(kind.parse().expect("a kind")),
        ["priced", _, limit, price] => Cause::Priced { limit: figure(limit), price: figure(price) },
        ["share", _, lot] => Cause::Share(figure(lot)),
        ["residue", _, lot, turn] => Cause::Residue { lot: figure(lot), turn: figure(turn) },
        _ => unreachable!("the library said {words:?}"),
    }
}
