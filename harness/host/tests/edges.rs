//! The edges of the library's answers.
use host::{allocate_pro_rata_into, fill_count, find_uniform_clear_price, listing, listing_into, why, why_into};
use host::{Bid, Cause, Order, Refusal, MAX_FILE};
use std::{fs, path::Path};

fn case_l() -> Vec<u8> {
    fs::read(Path::new(env!("CARGO_MANIFEST_DIR")).join("../../examples/case-l.session")).unwrap()
}

#[test]
fn no_file_above_the_limit() {
    assert!(listing(&vec![0; MAX_FILE]).is_ok());
    assert_eq!(listing(&vec![0; MAX_FILE + 1]), Err(Refusal::InputTooLong));
}

#[test]
fn lent_outputs() {
    let mut output = [7; 12];
    assert_eq!(listing_into(b"", &mut output), Ok(9));
    assert_eq!(&output, b"end none\n\x07\x07\x07");
    assert_eq!(listing_into(b"", &mut output[..8]), Err(Refusal::OutputTooSmall));
    assert_eq!(&output, b"\0\0\0\0\0\0\0\0\n\x07\x07\x07");
}

/// A refused settle's line is almost three times as long as its record, so the listing outgrows the first output.
#[test]
fn the_output_grows() {
    let mut file = case_l();
    while file.len() + 6 <= MAX_FILE {
        file.extend(b"ST\xff\xff\xff\xff");
    }
    let text = String::from_utf8(listing(&file).unwrap()).unwrap();
    assert!(text.ends_with(" refused 10\nend 5 1\n"));
}

#[test]
fn records_over_the_limit() {
    let orders = [Order { bidder_id: 1, limit_price: 1, qty: 1, is_buy: true }; 17];
    assert_eq!(find_uniform_clear_price(&orders[..16], 0, 0), Ok(None));
    assert_eq!(find_uniform_clear_price(&orders, 0, 0), Err(Refusal::BadLength));
}

#[test]
fn lent_lots() {
    let bids = [Bid { id: 1, qty: 5 }, Bid { id: 2, qty: 3 }];
    let mut lots = [7; 3];
    assert_eq!(allocate_pro_rata_into(7, &bids, &mut lots), Err(Refusal::BadLength));
    assert_eq!(allocate_pro_rata_into(9, &bids, &mut lots[..2]), Err(Refusal::OverAllocation));
    assert_eq!(allocate_pro_rata_into(1, &[], &mut lots[..0]), Err(Refusal::InvalidInput));
    assert_eq!(lots, [7; 3]);
    assert_eq!(allocate_pro_rata_into(7, &bids, &mut lots[..2]), Ok(()));
    assert_eq!(lots, [5, 2, 7]);
}

#[test]
fn entries_over_the_limit() {
    let lots = [1; 17];
    assert_eq!(fill_count(&lots[..16], &[0; 16]), Ok(16));
    assert_eq!(fill_count(&lots, &[0; 17]), Err(Refusal::BadLength));
    assert_eq!(fill_count(&[0; 17], &[0; 17]), Err(Refusal::BadLength));
}

#[test]
fn entries_of_unequal_length() {
    assert_eq!(fill_count(&[5, 4], &[0]), Err(Refusal::BadLength));
    assert_eq!(fill_count(&[5], &[0, 1]), Err(Refusal::BadLength));
    assert_eq!(fill_count(&[], &[0]), Err(Refusal::BadLength));
    assert_eq!(fill_count(&[5], &[]), Err(Refusal::BadLength));
}

/// Also where the lot on it is 0, and after 30.
#[test]
fn no_such_side() {
    assert_eq!(fill_count(&[5, 4], &[0, 2]), Err(Refusal::BadField));
    assert_eq!(fill_count(&[5, 4, 0], &[0, 1, 255]), Err(Refusal::BadField));
    assert_eq!(fill_count(&[5, 4], &[2]), Err(Refusal::BadLength));
    assert_eq!(fill_count(&[5], &[0, 2]), Err(Refusal::BadLength));
    assert_eq!(fill_count(&[1; 17], &[2; 17]), Err(Refusal::BadLength));
}

#[test]
fn no_lots() {
    assert_eq!(fill_count(&[], &[]), Ok(0));
    assert_eq!(fill_count(&[0; 16], &[0, 1, 0, 1, 0, 1, 0, 1, 0, 1, 0, 1, 0, 1, 0, 1]), Ok(0));
    assert_eq!(fill_count(&[0, 0, 5, 0, 5], &[0, 1, 0, 1, 1]), Ok(1));
}

/// Sums are not cut at 64 bits, and the sides need no one total.
#[test]
fn sums_past_64_bits() {
    const MAX: u64 = u64::MAX;
    assert_eq!(fill_count(&[MAX, MAX, MAX - 1], &[0, 0, 1]), Ok(3));
    assert_eq!(fill_count(&[MAX, 1, 2, MAX, 1], &[0, 0, 0, 1, 1]), Ok(3));
    assert_eq!(fill_count(&[MAX, 3, 2], &[0, 0, 1]), Ok(3));
    assert_eq!(fill_count(&[MAX; 16], &[0, 0, 0, 0, 0, 0, 0, 0, 1, 1, 1, 1, 1, 1, 1, 1]), Ok(8));
}

/// Case L up to its clear: a header, four orders, four screens, a clear.
#[test]
fn why_in_case_l() {
    let file = case_l();
    let causes = [Cause::Residue { lot: 5, turn: 1 }, Cause::Share(2), Cause::Share(4), Cause::Share(3)];
    assert_eq!([0, 1, 2, 3].map(|order| why(&file[..464], order)), causes.map(Ok));
    assert_eq!([4, 16, 256, 1 << 32, u64::MAX].map(|order| why(&file[..464], order)), [Err(Refusal::NoOrder); 5]);
    // Before the clear, within it, and after the last crank.
    assert_eq!([454, 463, file.len()].map(|at| why(&file[..at], 0).unwrap_err().number()), [10, 1, 10]);
}

#[test]
fn why_without_a_session() {
    assert_eq!([&b""[..], b"S", b"SX", b"OR"].map(|file| why(file, 0).unwrap_err().number()), [1, 1, 2, 3]);
    assert_eq!([MAX_FILE, MAX_FILE + 1].map(|length| why(&vec![0; length], 0).unwrap_err().number()), [2, 26]);
}

/// No refusal touches the output.
#[test]
fn lent_lines() {
    let file = &case_l()[..464];
    let mut output = [7; 16];
    assert_eq!(why_into(file, 0, &mut output[..13]), Err(Refusal::OutputTooSmall));
    assert_eq!(why_into(file, 4, &mut output[..0]), Err(Refusal::NoOrder));
    assert_eq!(why_into(&file[..454], 0, &mut output), Err(Refusal::WrongPhase));
    assert_eq!(output, [7; 16]);
    assert_eq!(why_into(file, 0, &mut output), Ok(14));
    assert_eq!(&output, b"residue 0 5 1\n\x07\x07");
}
