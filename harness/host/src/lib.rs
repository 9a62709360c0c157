//! The proved libraries for a host in Rust: session files; why an order of a session file got its lot; the price search and pro-rata on
//! records; and the number of fills from the lots.
//!
//! A session file goes in, its listing comes out; `docs/SESSION-FILE.md` describes both. A file that is turned away has a listing too,
//! which says at which record and why.
//!
//! ```
//! let file = b"SX no header";
//! let listing = host::listing(file).expect("a file of at most 65,536 bytes");
//! assert_eq!(listing, b"0 refused 2\nend none\n");
//! ```
//!
//! The static libraries are made by `harness/run library NAME`, with `session_file`, `file_inquiries`, `order_slices` and `fills`.
mod allocation;
mod entry;
mod fills;
mod refusal;
mod why;

pub use allocation::{allocate_pro_rata, allocate_pro_rata_into, find_uniform_clear_price, Bid, Cross, Figures, Order};
pub use entry::clear_session_file;
pub use fills::fill_count;
pub use refusal::Refusal;
pub use why::{why, why_in_session_file, why_into, Cause};

/// The longest file, in bytes.
pub const MAX_FILE: usize = 65_536;

/// The listing of a session file. The only refusal is `Refusal::InputTooLong`: the output is made as long as the listing needs.
pub fn listing(file: &[u8]) -> Result<Vec<u8>, Refusal> {
    // Few listings are twice as long as their file.
    let mut output = vec![0; 1024 + 2 * file.len().min(MAX_FILE)];
    loop {
        match listing_into(file, &mut output) {
            Ok(length) => {
                output.truncate(length);
                return Ok(output);
            }
            Err(Refusal::OutputTooSmall) => output.resize(2 * output.len(), 0),
            Err(refusal) => return Err(refusal),
        }
    }
}

/// The same into a lent output: the length of the listing at its start, with the bytes after it untouched. A refusal zeroes it all.
pub fn listing_into(file: &[u8], output: &mut [u8]) -> Result<usize, Refusal> {
    let answer = clear_session_file(file, output);
    usize::try_from(answer).map_err(|_| Refusal::of(answer.unsigned_abs() as u8))
}
