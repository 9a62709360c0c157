//! The header and the orders of a file.
use super::cover::{covered, uncovered};
use super::style::{wallet, Style};
use crate::random::Random;
use crate::record::{Header, Order};
use crate::MAX_ORDERS;

pub fn book(r: &mut Random, style: &Style) -> Vec<u8> {
    let mut out = Vec::new();
    header(r, style).write(&mut out);
    let most = MAX_ORDERS as u64;
    let count = r.pick(&[0, 1, 2, 2, 3, 4, 4, 5, 6, 8, most * 5 / 8, most * 3 / 4, most - 2, most, most, most, most + 1]);
    let buys = r.pick(&[50, 50, 50, 20, 80, 90]);
    let large = if r.chance(80) { 1 } else { u64::MAX };
    let last = count.saturating_sub(1);
    // The order that is not covered after `SI`, if there is one.
    let bare = r.one_in(6).then(|| r.pick(&[0, last, last, last / 2]));
    let qty = style.qty(r);
    for i in 0..count {
        let owner = if r.chance(99) { i + 1 } else { r.below(count + 1) };
        let side = u8::from(!r.chance(buys));
        let qty = if style.same_qty { qty } else { style.qty(r) };
        let order = Order { owner: wallet(owner), side, escrowed: 1, revealed: true, limit: style.limit(r), qty };
        let order = varied(r, order, large);
        match style.decimals.filter(|_| order.revealed) {
            Some(decimals) if bare == Some(i) => uncovered(r, order, decimals),
            Some(decimals) => covered(r, order, decimals),
            None => order,
        }
        .write(&mut out);
    }
    out
}

fn header(r: &mut Random, style: &Style) -> Header {
    let forced = r.chance(20);
    let (limit, other) = (style.limit(r), style.limit(r));
    let reserve = if forced && r.chance(98) { 0 } else { r.pick(&[0, 0, 1, 2, limit]) };
    let between = limit.midpoint(other);
    Header {
        reveal_end: style.reveal_end,
        rofr_window: style.rofr_window,
        settle_deadline: style.settle_deadline,
        max_cash: r.pick(&[1, 60, 200, u64::MAX, u64::MAX, u64::MAX, 1 << 63]),
        min_reveals: r.pick(&[2, 2, 2, 2, 2, 2, 2, 3, 4, 255, 1]),
        forced,
        rofr_authority: wallet(style.authority),
        mark: !r.chance(5),
        reserve,
        reference: r.pick(&[0, 1, 2, 3, u64::MAX, limit, between, between]),
        policy: r.pick(&[0, 0, 1, 1, 1, 2, 3]),
        band_bps: r.pick(&[0, 1, 100, 2500, 3333, 5000, 9999, 10_000]),
        decimals: style.decimals,
    }
}

/// With any escrow, and unrevealed at times.
fn varied(r: &mut Random, order: Order, large: u64) -> Order {
    let escrowed = r.pick(&[1, 1, 5, 30, 60, order.qty, large]);
    if r.chance(95) {
        return Order { escrowed, ..order };
    }
    Order { escrowed, revealed: false, limit: 0, qty: 0, ..order }
}
