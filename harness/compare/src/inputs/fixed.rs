//! Inputs that are the same for every seed: all short ones, every record cut at every length, orders at the edge of their escrow, and
//! the longest files.
use super::cover::cover;
use oracle::record::{Call, Header, Order};
use oracle::MAX_FILE;

/// Hands each of them to `input`.
pub fn fixed(mut input: impl FnMut(&[u8])) {
    tails(&[], &mut input);
    for decimals in [None, Some(0)] {
        let header = header(decimals);
        tails(&header, &mut input);
        tails(&[&header[..], &bytes(Call::Clear { now: 0 })].concat(), &mut input);
        cut_records(&header, &mut input);
    }
    cover(&mut input);
    lengths(&header(None), &mut input);
    thousands(&header(None), &mut input);
}

/// Every tail of up to two bytes.
fn tails(before: &[u8], input: &mut impl FnMut(&[u8])) {
    input(before);
    for a in 0..=255 {
        input(&[before, &[a]].concat());
        for b in 0..=255 {
            input(&[before, &[a, b]].concat());
        }
    }
}

/// Each record, first in the file and after a header, cut at every length, with ones in its body and with zeros.
fn cut_records(header: &[u8], input: &mut impl FnMut(&[u8])) {
    for mark in [b"SH", b"SI", b"OR", b"SC", b"CL", b"AL", b"RX", b"RC", b"ST", b"SK", b"FN", b"EX"] {
        let width = oracle::width(mark).expect("a known mark");
        for fill in [0, 1, 255] {
            let mut record = vec![fill; width];
            record[..2].copy_from_slice(mark);
            for length in 2..=width {
                input(&record[..length]);
                input(&[header, &record[..length]].concat());
            }
        }
    }
}

/// Files of the longest length, one byte less and more, and far more: of zeros, and of a header and settles.
fn lengths(header: &[u8], input: &mut impl FnMut(&[u8])) {
    let settle = bytes(Call::Settle { fill: u32::MAX });
    for length in [MAX_FILE - 1, MAX_FILE, MAX_FILE + 1, MAX_FILE + 6, 2 * MAX_FILE] {
        input(&vec![0; length]);
        let mut file = header.to_vec();
        while file.len() < length {
            file.extend(&settle);
        }
        file.truncate(length);
        input(&file);
    }
}

/// Thousands of one call each, in the phase that lets it in: clears that are refused for their volume, cranks that make no fill,
/// purchases of nothing, settles and skips of a fill that is settled.
fn thousands(header: &[u8], input: &mut impl FnMut(&[u8])) {
    let now = 0;
    let issuer = AUTHORITY;
    let clear = Call::Clear { now };
    let settle = Call::Settle { fill: 0 };
    let way = [clear.clone(), Call::Allocate { now, max_fills: 255 }, Call::Close { now, caller: issuer }, settle.clone()];
    let mut repeated = |qty, way: &[Call], call| input(&repeat(header, qty, way, call));
    repeated(u64::MAX, &[], clear);
    repeated(5, &way[..1], Call::Allocate { now, max_fills: 0 });
    repeated(5, &way[..2], Call::Exercise { now, issuer, fill: 0, qty: 0 });
    repeated(5, &way, settle);
    repeated(5, &way, Call::Skip { now, fill: 0, reason: 1 });
}

const AUTHORITY: [u8; 32] = [9; 32];

/// A header: `SI` with so many decimals, or `SH`.
pub fn header(decimals: Option<u8>) -> Vec<u8> {
    let mut out = Vec::new();
    Header {
        reveal_end: 0,
        rofr_window: 5,
        settle_deadline: 10,
        max_cash: u64::MAX,
        min_reveals: 2,
        forced: false,
        rofr_authority: AUTHORITY,
        mark: true,
        reserve: 1,
        reference: 1,
        policy: 0,
        band_bps: 0,
        decimals,
    }
    .write(&mut out);
    out
}

fn bytes(call: Call) -> Vec<u8> {
    let mut out = Vec::new();
    call.write(&mut out);
    out
}

/// Two bids and two asks of a quantity, screened, some calls, and one call over and over to the end of the longest file.
fn repeat(header: &[u8], qty: u64, way: &[Call], repeated: Call) -> Vec<u8> {
    let mut file = header.to_vec();
    for i in 0..4u8 {
        Order { owner: [i + 1; 32], side: i % 2, escrowed: 1, revealed: true, limit: 1, qty }.write(&mut file);
    }
    for i in 0..4u8 {
        Call::Screen { now: 0, order: i, side: i % 2, verdict: 0, id: Some([i + 1; 16]) }.write(&mut file);
    }
    way.iter().for_each(|c| c.write(&mut file));
    let record = bytes(repeated);
    while file.len() + record.len() <= MAX_FILE {
        file.extend(&record);
    }
    file
}
