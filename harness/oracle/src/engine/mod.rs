//! The published engine: a session is opened, and calls are run on it one at a time.
mod accounts;
mod calls;
mod numbers;
mod screening;
mod words;

use crate::record::{Call, Header, Order};
use anchor_lang::prelude::Pubkey;
use anchor_lang::{set_now, take_events};
use auction_engine::{self as source, Phase, Session};
use mark_engine::{Feed, FeedParams};
use std::panic::{catch_unwind, AssertUnwindSafe};

pub use numbers::{phase_of, policy_of};
pub use words::{digest, note_screens};

/// The published session, and the stand-in of the mark that it prices against.
#[derive(Clone)]
pub struct State {
    pub session: Session,
    pub feed: Feed,
    /// Whether a screen is run once and not both ways.
    pub quick: bool,
}

#[derive(Clone, Debug, PartialEq, Eq)]
pub enum Answer {
    /// The words of the lines, after the record's number.
    Done(Vec<String>),
    Refused(u8),
    /// The source's arithmetic trapped, or an index did. No file was ever seen to bring that about.
    Trapped,
}

/// One call. A refused one leaves the session as given, as a failed transaction does.
pub fn run(state: &mut State, call: &Call) -> Answer {
    if let Some(number) = library_refusal(state, call) {
        return Answer::Refused(number);
    }
    take_events();
    set_now(call.clock());
    let given = state.clone();
    let ran = catch_unwind(AssertUnwindSafe(|| calls::run(given, call)));
    let events = take_events();
    match ran {
        Ok((session, Ok(()))) => {
            let lines = words::lines(&events, &session);
            state.session = session;
            Answer::Done(if lines.is_empty() { vec!["none".to_string()] } else { lines })
        }
        Ok((_, Err(error))) => Answer::Refused(numbers::refusal_of(error)),
        Err(_) => Answer::Trapped,
    }
}

/// 'Library call, any': 9, then 4.
fn library_refusal(state: &State, call: &Call) -> Option<u8> {
    if is_over_a_limit(state) {
        return Some(9);
    }
    is_outside(call).then_some(4)
}

/// 'Library call, any': 9.
pub fn is_over_a_limit(state: &State) -> bool {
    let s = &state.session;
    s.orders.len() > crate::MAX_ORDERS
        || s.fills.len() > crate::MAX_FILLS
        || state.feed.params.band_bps > 10_000
        || (s.params.forced_sale && state.feed.reserve != 0)
        || s.params.reveal_end.checked_add(s.params.rofr_window).is_none()
}

/// 'Library call, any': 4, for an argument. The source's types leave little of it to test.
pub fn is_outside(call: &Call) -> bool {
    match *call {
        Call::Screen { side, verdict, id, .. } => side > 1 || verdict > 6 || (side == 0 && verdict == 0 && id.is_none()),
        Call::Skip { reason, .. } => reason > 6,
        _ => false,
    }
}

/// The session of a header, without orders.
pub fn open(h: &Header) -> State {
    let feed = feed(h);
    let session = Session {
        venue: accounts::VENUE,
        session_id: 0,
        asset_mint: accounts::MINT,
        asset_decimals: 0,
        feed: accounts::FEED,
        rails_session: accounts::RAILS_SESSION,
        params: params(h),
        phase: Phase::Reveal,
        reserve_price: 0,
        reference_mark: 0,
        clear_price: 0,
        cleared_volume: 0,
        rofr_qty: 0,
        fills_settled: 0,
        orders: Vec::new(),
        fills: Vec::new(),
        bump: 255,
        investor_ids: Vec::new(),
        skipped_fills: 0,
        // Always taken: document 01's mark that is not available is the standstill.
        open_mark: source::MarkSnapshot::take(&feed, 0).expect("a mark"),
    };
    State { session, feed, quick: false }
}

fn feed(h: &Header) -> Feed {
    Feed {
        asset_mint: accounts::MINT,
        asset_decimals: 0,
        params: FeedParams { print_policy: numbers::policy_of(h.policy), band_bps: h.band_bps },
        nav_pico: 1,
        computed_ts: 0,
        standstill: !h.mark,
        reserve: h.reserve,
        reference: h.reference,
    }
}

fn params(h: &Header) -> source::SessionParams {
    source::SessionParams {
        commit_end: h.reveal_end.saturating_sub(1),
        reveal_end: h.reveal_end,
        rofr_window: h.rofr_window,
        settle_deadline: h.settle_deadline,
        bond: 1,
        max_cash: h.max_cash,
        min_reveals: h.min_reveals,
        max_discount_bps: 0,
        forced_sale: h.forced,
        rofr_authority: Pubkey(h.rofr_authority),
        disclosure_hash: [0; 32],
    }
}

/// Whether the published `reveal` takes an order in a session of so many decimals, or the refusal that its error is. The order stands
/// alone, and the clock between two times, so that nothing else can stop it.
pub fn reveal(state: &State, o: &Order, decimals: u8) -> Result<(), u8> {
    let mut session = state.session.clone();
    session.asset_decimals = decimals;
    (session.params.commit_end, session.params.reveal_end) = (0, 1);
    session.orders = vec![source::Order { revealed: false, limit: 0, qty: 0, ..order(o) }];
    set_now(Some(0));
    calls::reveal(session, o).map_err(numbers::reveal_refusal_of)
}

/// An order as it stands in the session before any call.
pub fn order(o: &Order) -> source::Order {
    source::Order {
        owner: Pubkey(o.owner),
        side: numbers::side_of(o.side),
        commitment: [0; 32],
        escrowed: o.escrowed,
        revealed: o.revealed,
        limit: o.limit,
        qty: o.qty,
        alloc: 0,
        alloc_left: 0,
        screened: false,
        eligible: false,
    }
}
