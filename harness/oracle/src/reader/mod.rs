//! Document 01's reader: the records of a file in turn, with the refusals 1 to 8 and 31.
mod body;
mod calls;
mod opening;

use crate::engine::{self, Answer, State};
use body::Body;

/// The longest file, in bytes.
pub const MAX_FILE: usize = 65_536;

/// The most decimals that `SI` may name.
pub const MAX_DECIMALS: u8 = 19;

/// How many bytes the record of a mark has in all.
pub fn width(mark: &[u8]) -> Option<usize> {
    Some(match mark {
        b"SH" => 94,
        b"SI" => 95,
        b"OR" => 60,
        b"SC" => 30,
        b"CL" | b"FN" | b"EX" => 10,
        b"AL" => 11,
        b"RX" => 54,
        b"RC" => 42,
        b"ST" => 6,
        b"SK" => 15,
        _ => return None,
    })
}

/// What is left of a file, and the session so far.
pub struct Reader<'a> {
    pub rest: &'a [u8],
    pub state: Option<State>,
    /// What `SI` asks the orders' cover at; `SH` asks none.
    decimals: Option<u8>,
    pub calls: bool,
    /// Whether a screen is run once and not both ways (see `engine::screening`).
    quick: bool,
}

impl<'a> Reader<'a> {
    pub fn new(file: &'a [u8], quick: bool) -> Self {
        Reader { rest: file, state: None, decimals: None, calls: false, quick }
    }

    /// The next record: the words of its lines, or a refusal that ends the file.
    pub fn next_record(&mut self) -> Result<Vec<String>, u8> {
        let mark = self.rest.get(..2).ok_or(1)?;
        let width = width(mark).ok_or(2)?;
        if !self.in_place(mark) {
            return Err(3);
        }
        let mut body = Body(self.rest.get(2..width).ok_or(1)?);
        self.rest = &self.rest[width..];
        match (mark, &mut self.state) {
            (b"SH" | b"SI", state) => {
                let header = opening::header(mark, &mut body)?;
                *state = Some(opening::session(&header, self.quick)?);
                self.decimals = header.decimals;
                Ok(vec!["open".to_string()])
            }
            (b"OR", Some(state)) => Ok(vec![format!("order {}", opening::order(state, self.decimals, &mut body)?)]),
            (_, Some(state)) => {
                let call = calls::call(mark, &mut body)?;
                self.calls = true;
                Ok(match engine::run(state, &call) {
                    Answer::Done(words) => words,
                    Answer::Refused(number) => vec![format!("refused {number}")],
                    Answer::Trapped => vec!["PANIC".to_string()],
                })
            }
            (_, None) => unreachable!("a call before the header is out of order"),
        }
    }

    fn in_place(&self, mark: &[u8]) -> bool {
        match mark {
            b"SH" | b"SI" => self.state.is_none(),
            b"OR" => self.state.is_some() && !self.calls,
            _ => self.state.is_some(),
        }
    }
}

/// The session after a file in which no record is turned away.
pub fn session_after(file: &[u8]) -> Option<State> {
    run_through(file, false).ok()?.0
}

/// The session after a file, if a header opened one, and the words of all lines; or the refusal that ends the file.
pub fn run_through(file: &[u8], quick: bool) -> Result<(Option<State>, Vec<String>), u8> {
    let mut reader = Reader::new(file, quick);
    let mut lines = Vec::new();
    while !reader.rest.is_empty() {
        lines.extend(reader.next_record()?);
    }
    Ok((reader.state, lines))
}
