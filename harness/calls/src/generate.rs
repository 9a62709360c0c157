//! Random cases. Most let their call in; the rest are turned away, each in some way.
use crate::case::{Call, Case, Fill, Header, Order, MARKS};
use crate::exclusions;
use crate::numbers::{count, price, qty, time};
use oracle::random::Random;
use oracle::{MAX_FILLS, MAX_ORDERS};

const SCREEN: u8 = 0;
const ALLOCATE: u8 = 2;
const FINISH: u8 = 7;

pub fn case(r: &mut Random) -> Case {
    let kind = kind(r);
    let header = header(r);
    let all_settled = kind == FINISH && !r.one_in(3);
    let wide = r.one_in(10);
    let mut orders: Vec<Order> = (0..count(r, MAX_ORDERS)).map(|_| order(r, kind, wide)).collect();
    let fills: Vec<Fill> = (0..count(r, MAX_FILLS)).map(|_| fill(r, all_settled)).collect();
    if kind == SCREEN || kind == ALLOCATE {
        make_owners_distinct(&mut orders);
    }
    let call = call(r, kind, &header, &orders, fills.len());
    if kind == SCREEN && !r.one_in(4) {
        make_screenable(&mut orders, call.order);
    }
    exclusions::set(r, &mut orders);
    let bits = if r.one_in(4) { u32::MAX } else { 0x00ff_ffff };
    Case {
        phase: phase(r, kind),
        figures: [price(r), qty(r), price(r), price(r), qty(r)],
        fills_settled: if r.one_in(8) { u32::MAX - r.below(2) as u32 } else { r.below(9) as u32 },
        skipped: if r.one_in(2) { 0 } else { r.word() as u32 & bits },
        past: r.pick(&[0, 0, 1, 255]),
        call,
        header,
        orders,
        fills,
    }
}

/// One of the nine calls, the screen more often since most are refused; or at times a number that is none, up to the highest.
fn kind(r: &mut Random) -> u8 {
    let calls = MARKS.len() as u64;
    match r.below(12) {
        0 => (calls + r.below(256 - calls)) as u8,
        1 => r.pick(&[MARKS.len() as u8, u8::MAX]),
        2 => SCREEN,
        _ => r.below(calls) as u8,
    }
}

fn header(r: &mut Random) -> Header {
    let forced = r.one_in(4);
    let any_band = r.below(10_001);
    Header {
        times: [time(r), time(r) / 4, time(r).saturating_add(100)],
        max_cash: qty(r).saturating_mul(1 + r.below(4)),
        min_reveals: r.below(6) as u8,
        forced,
        authority: if r.one_in(3) { 0 } else { r.below(3) as u8 },
        mark: !r.one_in(6),
        reserve: if forced && !r.one_in(20) { 0 } else { price(r) },
        reference: price(r),
        policy: if r.one_in(60) { 4 } else { r.below(4) as u8 },
        band_bps: if r.one_in(60) { 10_001 } else { r.pick(&[0, 1, 2500, 10_000, any_band]) },
    }
}

fn order(r: &mut Random, kind: u8, wide: bool) -> Order {
    let alloc = if kind >= ALLOCATE { qty(r) } else { 0 };
    Order {
        owner: r.below(20) as u8,
        side: if r.one_in(200) { 2 } else { r.below(2) as u8 },
        escrowed: qty(r),
        revealed: !r.one_in(6),
        limit: price(r),
        qty: if wide { r.word() | 1 << 63 } else { qty(r) },
        alloc,
        alloc_left: if r.one_in(2) { alloc } else { r.below(4) },
        screened: !r.one_in(if kind == SCREEN { 2 } else { 30 }),
        eligible: !r.one_in(4),
        exclusion: 0,
        id: r.below(4) as u8,
    }
}

fn fill(r: &mut Random, settled: bool) -> Fill {
    Fill {
        buyer: r.below(20) as u8,
        seller: r.below(20) as u8,
        qty: if r.one_in(8) { 0 } else { qty(r) },
        rofr: r.one_in(5),
        settled: r.one_in(2) || settled,
    }
}

/// The source's events name wallets, so the oracle can tell the number of a screened or paired order only where no wallet has two.
fn make_owners_distinct(orders: &mut [Order]) {
    for (i, order) in orders.iter_mut().enumerate() {
        order.owner = 60 - i as u8;
    }
}

fn make_screenable(orders: &mut [Order], number: u8) {
    if let Some(order) = orders.get_mut(usize::from(number)) {
        (order.revealed, order.screened) = (true, false);
    }
}

/// A phase that lets the call in, most of the time.
fn phase(r: &mut Random, kind: u8) -> u8 {
    if r.one_in(6) {
        return r.below(9) as u8;
    }
    match kind {
        0 | 1 => r.pick(&[0, 1, 7, 7]),
        2 => 2,
        3 | 4 => 3,
        8 => r.pick(&[0, 1, 2, 3, 4, 7]),
        _ => 4,
    }
}

fn call(r: &mut Random, kind: u8, header: &Header, orders: &[Order], fills: usize) -> Call {
    let order = r.below(orders.len() as u64 + 1) as u8;
    let side = orders.get(usize::from(order)).map_or(0, |o| o.side);
    let has_id = !r.one_in(5);
    Call {
        kind,
        now: now(r, header),
        order,
        side: if r.one_in(6) { r.below(3) as u8 } else { side },
        verdict: if r.one_in(3) { r.below(8) as u8 } else { 0 },
        has_id,
        id: if has_id || r.one_in(10) { r.below(4) as u8 } else { 0 },
        max_fills: r.pick(&[0, 1, 2, 5, 24, 255]),
        wallet: if r.one_in(3) { r.below(3) as u8 } else { header.authority },
        fill: r.below(fills as u64 + 1) as u32,
        qty: if r.one_in(8) { 0 } else { r.below(4) + 1 },
        reason: r.below(8) as u8,
    }
}

/// A time at the start of a window, at its end or one beside, or any.
fn now(r: &mut Random, header: &Header) -> i64 {
    let [reveal_end, rofr_window, settle_deadline] = header.times;
    match r.below(8) {
        0 => time(r),
        1 => settle_deadline.saturating_add(r.below(2) as i64),
        2 => reveal_end.saturating_add(rofr_window).saturating_sub(r.below(2) as i64),
        3 => reveal_end.saturating_sub(1),
        _ => reveal_end,
    }
}
