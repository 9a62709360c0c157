//! Document 01's examples, on the published source.
use credit_math::{allocate_pro_rata, find_uniform_clear_price, MathError, Order};
use oracle::record::{self, Call, Header};

/// A header: `SI` with so many decimals, or `SH`.
fn header(decimals: Option<u8>) -> Vec<u8> {
    let mut file = Vec::new();
    Header {
        reveal_end: 100,
        rofr_window: 0,
        settle_deadline: 200,
        max_cash: 1000,
        min_reveals: 2,
        forced: false,
        rofr_authority: [0; 32],
        mark: true,
        reserve: 0,
        reference: 0,
        policy: 0,
        band_bps: 0,
        decimals,
    }
    .write(&mut file);
    file
}

/// Two bids and two asks at limit 1, screened and cleared.
fn two_and_two(first: u64, second: u64) -> String {
    let mut file = header(None);
    let sides = [(0, first), (0, second), (1, first), (1, second)];
    for (i, (side, qty)) in sides.iter().enumerate() {
        let owner = [i as u8 + 1; 32];
        record::Order { owner, side: *side, escrowed: 1, revealed: true, limit: 1, qty: *qty }.write(&mut file);
    }
    for (i, (side, _)) in sides.iter().enumerate() {
        let id = Some([i as u8 + 1; 16]);
        Call::Screen { now: 150, order: i as u8, side: *side, verdict: 0, id }.write(&mut file);
    }
    Call::Clear { now: 150 }.write(&mut file);
    oracle::listing(&file)
}

#[test]
fn volumes_at_64_bits() {
    assert!(two_and_two(1 << 63, 1 << 63).ends_with("9 refused 17\nend 7 0\n"));
    assert!(two_and_two(1 << 63, (1 << 63) - 1).contains("9 clear 1 18446744073709551615 0 0\n"));
}

#[test]
fn small_files() {
    assert_eq!(oracle::listing(b""), "end none\n");
    assert_eq!(oracle::listing(b"S"), "0 refused 1\nend none\n");
    assert_eq!(oracle::listing(b"SX"), "0 refused 2\nend none\n");
    assert_eq!(oracle::listing(b"OR"), "0 refused 3\nend none\n");
    assert_eq!(oracle::listing(b"SH"), "0 refused 1\nend none\n");
    assert_eq!(oracle::listing(&header(Some(19))[..94]), "0 refused 1\nend none\n");
    assert_eq!(oracle::listing(&[0; 65_537]), "0 refused 26\nend none\n");
}

#[test]
fn marked_for_proof() {
    let bids = [(1, 5), (2, 3)];
    assert_eq!(allocate_pro_rata(7, &bids), Ok(vec![(1, 5), (2, 2)]));
    assert_eq!(allocate_pro_rata(1, &[]), Err(MathError::InvalidInput));
    assert_eq!(allocate_pro_rata(9, &bids), Err(MathError::OverAllocation));
    let ones = [(7, 1), (3, 1), (5, 1)];
    assert_eq!(allocate_pro_rata(2, &ones), Ok(vec![(7, 0), (3, 1), (5, 1)]));
    let order = |limit_price, is_buy| Order { bidder_id: 0, limit_price, qty: 5, is_buy };
    let pair = [order(10, true), order(8, false)];
    let price = |reserve, reference| find_uniform_clear_price(&pair, reserve, reference).unwrap().map(|c| c.clear_price);
    assert_eq!([price(0, 9), price(0, 10), price(9, 9), price(11, 9)], [Some(8), Some(10), Some(10), None]);
    assert_eq!([2500, 0, 10_000].map(|bps| auction_engine::reach::band(11, bps)), [10, 11, 11]);
}

/// What is said of an order of quantity 250 at 13 after a header, and of the file's end.
fn ordered(decimals: Option<u8>, side: u8, escrowed: u64) -> String {
    let mut file = header(decimals);
    record::Order { owner: [1; 32], side, escrowed, revealed: true, limit: 13, qty: 250 }.write(&mut file);
    oracle::listing(&file)
}

/// 250 x 13 / 100 is 32.5. A sell needs its quantity, and after `SH` nothing is asked.
#[test]
fn cover() {
    let (taken, uncovered) = ("0 open\n1 order 0\nend 1 0\n", "0 open\n1 refused 31\nend 1 0\n");
    assert_eq!([32, 33].map(|escrow| ordered(Some(2), 0, escrow)), [uncovered, taken]);
    assert_eq!([249, 250].map(|escrow| ordered(Some(2), 1, escrow)), [uncovered, taken]);
    assert_eq!([0, 1].map(|side| ordered(None, side, 1)), [taken, taken]);
}

/// 'One header in all', and 'decimals, 0 to 19; other values get 4'.
#[test]
fn headers() {
    let (opened, refused) = ("0 open\nend 1 0\n", "0 refused 4\nend none\n");
    assert_eq!([0, 19, 20, 255].map(|decimals| oracle::listing(&header(Some(decimals)))), [opened, opened, refused, refused]);
    for (first, second) in [(None, Some(0)), (Some(0), None), (Some(0), Some(0)), (None, None)] {
        let file = [header(first), header(second)].concat();
        assert_eq!(oracle::listing(&file), "0 open\n1 refused 3\nend 1 0\n");
    }
}

/// 'Library call, any': a session over a limit is refused with 9 before anything is refused with 4, a kind that no call has included.
#[test]
fn limits_before_values() {
    let answer = |band: u64, policy: u8, call: &str| {
        let header = format!("100 0 200 1000 2 0 {} 1 9 10 {policy} {band}", "00".repeat(32));
        oracle::single_call::answer(&format!("{header} 1 0 0 0 0 0 0 0 0 0 {call}"))
    };
    assert_eq!([10_000, 10_001].map(|band| answer(band, 0, "-- 9")), ["4||", "9||"]);
    assert_eq!([10_000, 10_001].map(|band| answer(band, 4, "CL 150")), ["4||", "9||"]);
    assert_eq!([10_000, 10_001].map(|band| answer(band, 0, "SK 150 0 7")), ["4||", "9||"]);
}

/// 'Library call, any': 4 for an exclusion kind above 8 or at odds with the order's being excluded, after 9, of an order that the call is
/// not about too. A screen sets its order's kind, and no other call does.
#[test]
fn exclusion_kinds() {
    let key = |n: u8| format!("{n:02x}").repeat(32);
    let answer = |band: u64, flags: &str, call: &str| {
        let header = format!("100 0 200 1000 2 0 {} 1 9 10 0 {band}", "00".repeat(32));
        let due = format!("{} 1 4 1 9 4 0 0 0 0 0 {}", key(1), "00".repeat(16));
        let other = format!("{} 0 60 1 12 5 0 0 {flags} {}", key(2), "00".repeat(16));
        oracle::single_call::answer(&format!("{header} 7 0 0 0 0 0 0 0 2 {due} {other} 0 {call}"))
    };
    let screen = format!("SC 150 0 1 6 0 {}", "00".repeat(16));
    let refused = |band, flags| answer(band, flags, &screen).split('|').next() == Some(if band > 10_000 { "9" } else { "4" });
    for flags in ["1 0 0", "1 0 9", "1 0 255", "1 1 1", "0 0 8", "0 1 7", "0 0 9", "1 1 255"] {
        assert!(refused(10_000, flags) && refused(10_001, flags), "{flags}");
    }
    for flags in ["1 0 1", "1 0 8", "1 1 0", "0 0 0", "0 1 0"] {
        let screened = answer(10_000, flags, &screen);
        assert!(screened.starts_with("0|screen 0 6|7 "), "{screened}");
        assert!(
            screened.contains(" 1 4 1 9 4 0 0 1 0 6 ") && screened.contains(&format!(" 0 60 1 12 5 0 0 {flags} ")),
            "{screened}"
        );
        let failed = answer(10_000, flags, "EX 200");
        assert!(failed.contains(" 1 4 1 9 4 0 0 0 0 0 ") && failed.contains(&format!(" 0 60 1 12 5 0 0 {flags} ")), "{failed}");
    }
}

/// Case L with five orders more: one unrevealed, one of each side out of price, and one of each side excluded.
fn larger_case_l() -> Vec<u8> {
    let mut file = header(None);
    // Side, limit, quantity, verdict, investor.
    let rows = [
        (0, 12, 5, 0, 1),
        (0, 11, 3, 0, 2),
        (1, 9, 4, 0, 3),
        (1, 11, 3, 0, 4),
        (1, 0, 0, 0, 5),
        (0, 12, 9, 2, 6),
        (0, 10, 1, 0, 7),
        (1, 12, 8, 0, 8),
        (1, 9, 2, 0, 1),
    ];
    for (i, &(side, limit, qty, ..)) in rows.iter().enumerate() {
        record::Order { owner: [i as u8 + 1; 32], side, escrowed: 50, revealed: qty > 0, limit, qty }.write(&mut file);
    }
    for (i, &(side, _, qty, verdict, id)) in rows.iter().enumerate() {
        if qty > 0 {
            Call::Screen { now: 150, order: i as u8, side, verdict, id: Some([id; 16]) }.write(&mut file);
        }
    }
    Call::Clear { now: 150 }.write(&mut file);
    file
}

/// Document 02, ticket 5: at 11 the buys share 7 over 5 and 3, which leaves a unit; the sells' 4 and 3 are taken whole.
#[test]
fn causes() {
    let lines = "residue 0 5 1\nshare 1 2\nshare 2 4\nshare 3 3\nunrevealed 4\nexcluded 5 2\npriced 6 10 11\npriced 7 12 11\nexcluded 8 7\n";
    let mut file = larger_case_l();
    assert_eq!(oracle::causes(&file).unwrap().concat(), lines);
    // Neither fills nor refused calls change them.
    Call::Allocate { now: 150, max_fills: 1 }.write(&mut file);
    Call::Screen { now: 150, order: 1, side: 0, verdict: 1, id: None }.write(&mut file);
    assert_eq!(oracle::causes(&file).unwrap().concat(), lines);
    Call::Allocate { now: 150, max_fills: 9 }.write(&mut file);
    assert_eq!(oracle::causes(&file), Err(10));
}

/// Three units over quantities of 5, 7, 5, 7 and 1: the largest first, and of equal ones the first.
#[test]
fn turns() {
    let mut file = header(None);
    let rows = [(0, 5), (0, 7), (0, 5), (0, 7), (0, 1), (1, 13)];
    for (i, &(side, qty)) in rows.iter().enumerate() {
        record::Order { owner: [i as u8 + 1; 32], side, escrowed: 1, revealed: true, limit: 1, qty }.write(&mut file);
    }
    for (i, &(side, _)) in rows.iter().enumerate() {
        Call::Screen { now: 150, order: i as u8, side, verdict: 0, id: Some([i as u8 + 1; 16]) }.write(&mut file);
    }
    Call::Clear { now: 150 }.write(&mut file);
    // 13 x 5 / 25 is 2.6, 13 x 7 / 25 is 3.64, 13 / 25 is below 1.
    let lines = "residue 0 3 3\nresidue 1 4 1\nshare 2 2\nresidue 3 4 2\nshare 4 0\nshare 5 13\n";
    assert_eq!(oracle::causes(&file).unwrap().concat(), lines);
}

#[test]
fn files_without_causes() {
    let refusal = |file: &[u8]| oracle::causes(file).unwrap_err();
    let cleared = larger_case_l();
    assert_eq!(["", "S", "SX", "OR"].map(|file| refusal(file.as_bytes())), [1, 1, 2, 3]);
    assert_eq!([&header(None), &header(Some(20)), &cleared[..cleared.len() - 10]].map(|file| refusal(file)), [10, 4, 10]);
    assert_eq!([&cleared[..cleared.len() - 1], &[&cleared[..], b"X"].concat()].map(refusal), [1, 1]);
    assert_eq!([65_536, 65_537].map(|length| refusal(&vec![0; length])), [2, 26]);
}
