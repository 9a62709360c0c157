//! A screen, run as the published `screen_bid` or `screen_ask` and as their private steps. Both must agree.
use super::accounts::*;
use super::numbers::{exclusion_of, side_of};
use super::words::{digest, lines};
use super::State;
use anchor_lang::prelude::{Pubkey, Result};
use anchor_lang::{record_event, take_events};
use auction_engine::{self as source, reach, Session};

pub struct Screen {
    pub now: i64,
    pub order: u8,
    pub side: u8,
    pub verdict: u8,
    pub id: Option<[u8; 16]>,
}

pub fn run(state: State, screen: &Screen) -> (Session, Result<()>) {
    if !is_reached(screen) {
        return steps(state.session, screen);
    }
    if state.quick {
        return whole(state.session, screen);
    }
    let (by_steps, steps_result) = steps(state.session.clone(), screen);
    let steps_lines = lines(&take_events(), &by_steps);
    let (session, result) = whole(state.session, screen);
    let events = take_events();
    assert!(result == steps_result, "whole screen {result:?}, its steps {steps_result:?}");
    assert!(result.is_err() || (steps_lines == lines(&events, &session) && digest(&by_steps) == digest(&session)));
    events.into_iter().for_each(record_event);
    (session, result)
}

/// Whether the whole published call can come to this verdict with this id at all. Records carry other pairs too; those are run as
/// steps only.
fn is_reached(screen: &Screen) -> bool {
    match (screen.side, screen.verdict) {
        (0, 0) | (0, 3..=5) => screen.id.is_some(),
        (0, 1) => screen.id.is_none(),
        (0, 2) => true,
        (0, _) => false,
        (_, 0 | 1 | 6) => true,
        _ => false,
    }
}

/// `begin_screen`, the verdict or `investor_exclusion`, `finish_screen`.
fn steps(session: Session, screen: &Screen) -> (Session, Result<()>) {
    let mut held = held(SESSION, session);
    let began = reach::begin_screen(&mut held, screen.order, side_of(screen.side), screen.now);
    let result = began.map(|(owner, _mint)| {
        let by_investor = || screen.id.and_then(|id| reach::investor_exclusion(&held, screen.order, id));
        let exclusion = exclusion_of(screen.verdict).or_else(by_investor);
        reach::finish_screen(SESSION, &mut held, screen.order, owner, screen.id, exclusion);
    });
    (held.account, result)
}

fn whole(session: Session, screen: &Screen) -> (Session, Result<()>) {
    let order = session.orders.get(usize::from(screen.order));
    let (owner, qty) = order.map_or((OTHER, 0), |o| (o.owner, o.qty));
    if screen.side == 0 {
        let (a, result) = with(bid(session, screen, &owner), Vec::new(), |c| source::auction_engine::screen_bid(c, screen.order));
        (a.session.account, result)
    } else {
        let accounts = ask(session, screen, &owner, qty);
        let (a, result) = with(accounts, Vec::new(), |c| source::auction_engine::screen_ask(c, screen.order));
        (a.session.account, result)
    }
}

/// The accounts with which the gate's stand-in comes to the verdict on a bid.
fn bid(session: Session, screen: &Screen, owner: &Pubkey) -> source::ScreenBid<'static> {
    let verdict = screen.verdict;
    let id = screen.id.unwrap_or_default();
    let mut attested = id;
    if verdict == 4 {
        attested[0] ^= 1;
    }
    let unexpired = if verdict == 5 { 255 } else { 0 };
    source::ScreenBid {
        session: held(SESSION, session),
        gate_config: gate_config(),
        gate_policy: gate_policy(),
        block_entry: block_entry(owner, verdict == 1),
        holder_link: holder_link(owner, screen.id),
        investor: gate(credit_gate::InvestorRecord::SEED, &id, (verdict != 2).then(|| vec![1])),
        buyer_lots: holder_lots(owner, Some(Lots { unexpired, ..GOOD_LOTS })),
        identity_attestation: attestation(verdict == 3, attested),
        accreditation_attestation: unchecked(ATTESTATION),
        mint: unchecked(MINT),
        gate_program: program(credit_gate::ID),
    }
}

/// The same for an ask.
fn ask(session: Session, screen: &Screen, owner: &Pubkey, qty: u64) -> source::ScreenAsk<'static> {
    let sellable = if screen.verdict == 6 { qty.checked_sub(1) } else { Some(qty) };
    source::ScreenAsk {
        session: held(SESSION, session),
        gate_config: gate_config(),
        block_entry: block_entry(owner, screen.verdict == 1),
        seller_lots: holder_lots(owner, sellable.map(|sellable| Lots { sellable, ..GOOD_LOTS })),
        holder_link: holder_link(owner, screen.id),
    }
}
