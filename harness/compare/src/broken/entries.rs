//! Faults of the entry itself, over the source's listing.
use oracle::{listing, MAX_FILE};

type Side = fn(&[u8], &mut [u8]) -> i64;

pub const ENTRIES: &[(&str, &Side)] = &[
    ("a longest file refused", &(longest_refused as Side)),
    ("one byte more than the longest taken", &(longer_taken as Side)),
    ("bytes after the listing zeroed", &(rest_zeroed as Side)),
    ("an output too small by one left as it was", &(not_zeroed as Side)),
    ("an output that just fits refused", &(just_fits_refused as Side)),
    ("no newline after the last line", &(no_last_newline as Side)),
];

/// What the C entry must answer and leave, by a listing.
pub fn answer(listing: &str, file: &[u8], output: &mut [u8]) -> i64 {
    if file.len() > MAX_FILE {
        return refused(26, output);
    }
    if listing.len() > output.len() {
        return refused(27, output);
    }
    output[..listing.len()].copy_from_slice(listing.as_bytes());
    listing.len() as i64
}

fn refused(number: i64, output: &mut [u8]) -> i64 {
    output.fill(0);
    -number
}

fn longest_refused(file: &[u8], output: &mut [u8]) -> i64 {
    if file.len() == MAX_FILE {
        return refused(26, output);
    }
    answer(&listing(file), file, output)
}

fn longer_taken(file: &[u8], output: &mut [u8]) -> i64 {
    let taken = &file[..file.len().min(MAX_FILE)];
    answer(&listing(taken), taken, output)
}

fn rest_zeroed(file: &[u8], output: &mut [u8]) -> i64 {
    let length = answer(&listing(file), file, output);
    output[length.max(0) as usize..].fill(0);
    length
}

fn not_zeroed(file: &[u8], output: &mut [u8]) -> i64 {
    let listing = listing(file);
    if listing.len() == output.len() + 1 {
        return -27;
    }
    answer(&listing, file, output)
}

fn just_fits_refused(file: &[u8], output: &mut [u8]) -> i64 {
    let listing = listing(file);
    if listing.len() == output.len() {
        return refused(27, output);
    }
    answer(&listing, file, output)
}

fn no_last_newline(file: &[u8], output: &mut [u8]) -> i64 {
    answer(listing(file).trim_end(), file, output)
}
