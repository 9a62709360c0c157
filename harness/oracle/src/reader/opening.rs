//! The rows `SH`, `SI` and `OR`.
use super::body::Body;
use super::MAX_DECIMALS;
use crate::engine::{self, State};
use crate::record::{Header, Order};

/// The fields, each within its values.
pub fn header(mark: &[u8], b: &mut Body) -> Result<Header, u8> {
    let h = Header {
        reveal_end: b.i64(),
        rofr_window: b.i64(),
        settle_deadline: b.i64(),
        max_cash: b.u64(),
        min_reveals: b.u8(),
        forced: b.flag()?,
        rofr_authority: b.bytes(),
        mark: b.flag()?,
        reserve: b.u64(),
        reference: b.u64(),
        policy: b.u8(),
        band_bps: b.u64(),
        decimals: (mark == b"SI").then(|| b.u8()),
    };
    let bad_decimals = h.decimals.is_some_and(|d| d > MAX_DECIMALS);
    if (h.forced && h.reserve != 0) || h.policy > 3 || h.band_bps > 10_000 || bad_decimals {
        return Err(4);
    }
    Ok(h)
}

/// The session that a header opens.
pub fn session(h: &Header, quick: bool) -> Result<State, u8> {
    let refusal = header_refusal(h);
    let mut state = engine::open(h);
    state.quick = quick;
    source_agrees(&state, refusal);
    refusal.map_or(Ok(state), Err)
}

fn header_refusal(h: &Header) -> Option<u8> {
    let end = h.reveal_end.checked_add(h.rofr_window);
    let schedule = h.reveal_end < h.settle_deadline
        && h.rofr_window >= 0
        && (h.rofr_authority != [0; 32] || h.rofr_window == 0)
        && end.is_some_and(|e| e < h.settle_deadline)
        && h.min_reveals >= 2;
    match (schedule, h.max_cash) {
        (false, _) => Some(5),
        (true, 0) => Some(6),
        _ => None,
    }
}

/// The published `validate` says yes and no where document 01 does, wherever its clock and its sum fit. Its own refusals come in
/// another order, so their numbers are not compared.
fn source_agrees(state: &State, refusal: Option<u8>) {
    let p = &state.session.params;
    if p.reveal_end.checked_add(p.rofr_window).is_some() && p.reveal_end >= i64::MIN + 2 {
        let ok = p.validate(p.reveal_end - 2).is_ok();
        assert!(ok == refusal.is_none(), "validate says {ok}, document 01 {refusal:?}");
    }
}

pub fn order(state: &mut State, decimals: Option<u8>, b: &mut Body) -> Result<usize, u8> {
    let o = Order { owner: b.bytes(), side: b.u8(), escrowed: b.u64(), revealed: b.flag()?, limit: b.u64(), qty: b.u64() };
    if o.side > 1 {
        return Err(4);
    }
    let shown = if o.revealed { o.limit != 0 && o.qty != 0 } else { o.limit == 0 && o.qty == 0 };
    if o.escrowed == 0 || !shown {
        return Err(6);
    }
    if let Some(decimals) = decimals.filter(|_| o.revealed) {
        engine::reveal(state, &o, decimals)?;
    }
    let orders = &mut state.session.orders;
    if orders.len() >= crate::MAX_ORDERS {
        return Err(7);
    }
    if orders.iter().any(|p| p.owner.0 == o.owner) {
        return Err(8);
    }
    orders.push(engine::order(&o));
    Ok(orders.len() - 1)
}
