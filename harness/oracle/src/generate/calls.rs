//! The next call of a file, from where its session stands.
use super::style::{investor, wallet, Style};
use crate::engine::State;
use crate::random::Random;
use crate::record::Call;
use crate::MAX_ORDERS;
use auction_engine::{Phase, Session};

pub fn call(r: &mut Random, style: &Style, state: &State) -> Call {
    let s = &state.session;
    if r.chance(style.noise) {
        return any(r, style, s);
    }
    let now = style.good_time(r);
    match s.phase {
        Phase::Commit | Phase::Reveal | Phase::Clearing => screen_or_clear(r, style, s, now),
        Phase::Allocating => Call::Allocate { now, max_fills: r.pick(&[0, 1, 1, 2, 3, 7, 24, 255]) },
        Phase::IssuerRofr => exercise_or_close(r, style, s, now),
        Phase::Settling => settle_skip_or_finish(r, s, now),
        Phase::Printed | Phase::Failed => any(r, style, s),
    }
}

/// Any call, sensible or not.
fn any(r: &mut Random, style: &Style, s: &Session) -> Call {
    let good = r.chance(50);
    let now = if good { style.good_time(r) } else { style.edge_time(r) };
    match r.below(9) {
        0 => any_screen(r, style, s, now),
        1 => Call::Clear { now },
        2 => Call::Finish { now },
        3 => Call::Expire { now },
        4 => Call::Allocate { now, max_fills: r.pick(&[0, 1, 2, 3, 24, 255]) },
        5 => {
            let issuer = wallet(if r.chance(70) { style.authority } else { r.below(20) });
            Call::Exercise { now, issuer, fill: fill(r, s, good), qty: r.pick(&[0, 1, 2, 5, u64::MAX]) }
        }
        6 => Call::Close { now, caller: wallet(if r.chance(50) { style.authority } else { r.below(20) }) },
        7 => Call::Settle { fill: fill(r, s, good) },
        _ => Call::Skip { now, fill: fill(r, s, good), reason: r.below(7) as u8 },
    }
}

fn any_screen(r: &mut Random, style: &Style, s: &Session, now: i64) -> Call {
    let order = r.below(MAX_ORDERS as u64 + 2) as u8;
    let side = match s.orders.get(usize::from(order)) {
        Some(o) if r.chance(80) => o.side as u8,
        _ => r.below(2) as u8,
    };
    screen(r, style, now, order, side)
}

fn screen(r: &mut Random, style: &Style, now: i64, order: u8, side: u8) -> Call {
    let verdict = if r.chance(88) { 0 } else { 1 + r.below(6) as u8 };
    let has_id = (side == 0 && verdict == 0) || r.chance(75);
    Call::Screen { now, order, side, verdict, id: has_id.then(|| investor(r.below(style.ids + 1))) }
}

fn screen_or_clear(r: &mut Random, style: &Style, s: &Session, now: i64) -> Call {
    let is_due = |i: &u8| s.orders[usize::from(*i)].revealed && !s.orders[usize::from(*i)].screened;
    let due: Vec<u8> = (0..s.orders.len() as u8).filter(is_due).collect();
    if due.is_empty() {
        return Call::Clear { now };
    }
    let order = if r.chance(80) { due[0] } else { r.pick(&due) };
    screen(r, style, now, order, s.orders[usize::from(order)].side as u8)
}

fn exercise_or_close(r: &mut Random, style: &Style, s: &Session, now: i64) -> Call {
    if r.chance(style.close) {
        let caller = wallet(if r.chance(60) { style.authority } else { 3 });
        return Call::Close { now: if r.chance(50) { now } else { style.rofr_end() }, caller };
    }
    let fill = fill(r, s, true);
    let held = s.fills.get(fill as usize).map_or(1, |f| f.qty);
    let part = 1 + r.below(held.max(1));
    let small = style.close < 10 && r.chance(85);
    let qty = if small { 1 } else { r.pick(&[1, held, held, held.saturating_add(1), part]) };
    Call::Exercise { now: style.reveal_end, issuer: wallet(style.authority), fill, qty }
}

fn settle_skip_or_finish(r: &mut Random, s: &Session, now: i64) -> Call {
    if s.fills.iter().all(|f| f.settled) {
        return Call::Finish { now };
    }
    let fill = fill(r, s, true);
    if r.chance(75) {
        Call::Settle { fill }
    } else {
        Call::Skip { now, fill, reason: r.below(7) as u8 }
    }
}

/// The number of a fill: an open one, if asked for and there; else any, also one past the last.
fn fill(r: &mut Random, s: &Session, open: bool) -> u32 {
    let count = s.fills.len() as u32;
    let unsettled: Vec<u32> = (0..count).filter(|i| open && !s.fills[*i as usize].settled).collect();
    if !unsettled.is_empty() {
        return r.pick(&unsettled);
    }
    match r.below(12) {
        0 => u32::MAX,
        1 => count,
        2 => 1 << 31,
        _ => r.below(u64::from(count) + 1) as u32,
    }
}
