//! The test of an order's cover, through the published `gross`, through arithmetic of 128 bits here, and through ours.
use crate::case::number;
use host::Refusal;
use oracle::random::Random;
use oracle::MAX_DECIMALS;

extern "C" {
    fn entry_cover_refusal(decimals: u8, side: u8, escrowed: u64, revealed: bool, limit: u64, qty: u64) -> u8;
}

/// An order, and the decimals that its cover is asked at.
#[derive(Clone, Copy, Debug)]
struct Row {
    decimals: u8,
    side: u8,
    escrowed: u64,
    revealed: bool,
    limit: u64,
    qty: u64,
}

/// How many rows were tested, and how many of them answered differently. The first differences are shown.
pub fn compare(r: &mut Random, count: u64) -> [u64; 2] {
    let (mut tests, mut different) = (0, 0);
    let mut test = |row: Row| {
        tests += 1;
        if answers(row).windows(2).any(|pair| pair[0] != pair[1]) {
            different += 1;
            if different <= 5 {
                println!("{row:?}\n  ours, 128 bits, source: {:?}", answers(row));
            }
        }
    };
    (0..=255).for_each(|decimals| edges(decimals, &mut test));
    (0..count).for_each(|_| test(any(r)));
    [tests, different]
}

/// Ours, that of 128 bits and, where the source has one, the source's: 31 or 0.
fn answers(row: Row) -> Vec<u8> {
    let Row { decimals, side, escrowed, revealed, limit, qty } = row;
    // Numbers alone go over.
    let ours = unsafe { entry_cover_refusal(decimals, side, escrowed, revealed, limit, qty) };
    let refusal = |covered: bool| if covered || !revealed { 0 } else { Refusal::ExceedsEscrow.number() };
    let needed = if side == 0 { amount(decimals, limit, qty) } else { qty.into() };
    let mut all = vec![ours, refusal(needed <= escrowed.into())];
    if side == 0 && decimals <= MAX_DECIMALS {
        let cash = oracle::functions::answer(&format!("gross {qty} {limit} {decimals}"));
        all.push(refusal(cash.parse::<u64>().is_ok_and(|cash| cash <= escrowed)));
    }
    all
}

/// limit x qty / 10^decimals, rounded up. A power above 128 bits is above every product.
fn amount(decimals: u8, limit: u64, qty: u64) -> u128 {
    let product = u128::from(limit) * u128::from(qty);
    10u128.checked_pow(decimals.into()).map_or(product.min(1), |scale| product.div_ceil(scale))
}

/// Escrows of what an order needs, one less and one more, as far as 64 bits go.
fn escrows(decimals: u8, side: u8, limit: u64, qty: u64) -> [u64; 3] {
    let needed = if side == 0 { amount(decimals, limit, qty) } else { qty.into() };
    [needed.saturating_sub(1), needed, needed + 1].map(|escrowed| u64::try_from(escrowed).unwrap_or(u64::MAX))
}

/// Every pair of edges at some decimals, on each side and on numbers that no side has, revealed and not.
fn edges(decimals: u8, test: &mut impl FnMut(Row)) {
    let scale = 10u64.checked_pow(decimals.into()).unwrap_or(u64::MAX - 1);
    let edges = [0, 1, 2, scale - 1, scale, scale + 1, 1 << 32, 1 << 63, u64::MAX];
    for (limit, qty) in edges.into_iter().flat_map(|limit| edges.map(|qty| (limit, qty))) {
        for (side, revealed) in [(0, true), (1, true), (2, true), (255, true), (0, false), (1, false)] {
            for escrowed in escrows(decimals, side, limit, qty) {
                test(Row { decimals, side, escrowed, revealed, limit, qty });
            }
        }
    }
}

/// Half the time decimals that a header may name, and mostly an escrow about what the order needs.
fn any(r: &mut Random) -> Row {
    let decimals = if r.one_in(2) { r.below(u64::from(MAX_DECIMALS) + 1) } else { r.below(256) } as u8;
    let side = r.pick(&[0, 0, 0, 1, 2, 255]);
    let limit = number(r, 1000);
    let qty = if r.one_in(4) { near_64_bits(r, decimals, limit) } else { number(r, 1000) };
    let escrowed = if r.one_in(8) { number(r, 1000) } else { r.pick(&escrows(decimals, side, limit, qty)) };
    Row { decimals, side, escrowed, revealed: !r.one_in(10), limit, qty }
}

/// A quantity whose amount at the limit is about 2^64, if there is one.
fn near_64_bits(r: &mut Random, decimals: u8, limit: u64) -> u64 {
    let scale = 10u128.pow(decimals.min(MAX_DECIMALS).into());
    let largest = u128::from(u64::MAX) * scale / u128::from(limit.max(1));
    u64::try_from(largest + u128::from(r.below(3))).map_or(u64::MAX, |qty| qty.saturating_sub(1))
}
