//! The recorded events in the listing's words, in their order.
use super::numbers::reason_number;
use anchor_lang::prelude::Pubkey;
use auction_engine::{self as source, Session};
use std::any::Any;

/// One line's words for each event. What the mark engine was offered is recorded too, and has no line.
pub fn lines(events: &[Box<dyn Any>], session: &Session) -> Vec<String> {
    let mut out = Vec::new();
    for event in events {
        let event = event.as_ref();
        match course(event, session).or_else(|| fills(event, session)).or_else(|| print(event)) {
            Some(words) => out.push(words),
            None => assert!(event.is::<mark_engine::PrintInput>(), "an event without a line"),
        }
    }
    out
}

fn course(event: &dyn Any, session: &Session) -> Option<String> {
    if let Some(e) = event.downcast_ref::<source::PhaseChanged>() {
        return Some(format!("phase {} {}", e.from.map_or(99, |p| p as u8), e.to as u8));
    }
    if let Some(e) = event.downcast_ref::<source::OrderScreened>() {
        return Some(format!("screen {} {}", place(session, &e.owner), e.exclusion.map_or(0, |x| x as u8 + 1)));
    }
    if let Some(e) = event.downcast_ref::<source::Cleared>() {
        return Some(format!("clear {} {} {} {}", e.price, e.volume, e.reserve, e.reference));
    }
    let e = event.downcast_ref::<source::SessionFailed>()?;
    Some(format!("failed {}", reason_number(e.reason)))
}

fn fills(event: &dyn Any, session: &Session) -> Option<String> {
    if let Some(e) = event.downcast_ref::<source::FillAllocated>() {
        return Some(format!("fill {} {} {} {}", e.fill_index, place(session, &e.buyer), place(session, &e.seller), e.qty));
    }
    if let Some(e) = event.downcast_ref::<source::RofrExercised>() {
        return Some(format!("rofr {} {} {} {}", e.fill_index, e.rofr_fill_index, e.qty, e.price));
    }
    if let Some(e) = event.downcast_ref::<source::RofrClosed>() {
        return Some(format!("close {}", e.exercised_qty));
    }
    if let Some(e) = event.downcast_ref::<source::FillSettled>() {
        return Some(format!("settle {} {} {}", e.fill_index, e.qty, e.price));
    }
    let e = event.downcast_ref::<source::FillSkipped>()?;
    Some(format!("skip {} {} {}", e.fill_index, e.qty, e.reason as u8 + 1))
}

fn print(event: &dyn Any) -> Option<String> {
    let e = event.downcast_ref::<source::ClearingPrint>()?;
    let (forced, policy, partial) = (u8::from(e.forced_sale), e.print_policy_class as u8, u8::from(e.partial));
    Some(format!("print {} {} {} {forced} {policy} {partial}", e.price, e.volume, e.n_investor_ids))
}

/// The exclusions of the orders that the lines of one call say were screened, each in its order's place.
pub fn note_screens(lines: &[String], exclusions: &mut [u8]) {
    for line in lines {
        if let ["screen", order, exclusion] = line.split(' ').collect::<Vec<_>>()[..] {
            let order: usize = order.parse().expect("an order's number");
            exclusions[order] = exclusion.parse().expect("an exclusion's number");
        }
    }
}

/// The source's events name wallets; a file has no two orders of one.
fn place(session: &Session, wallet: &Pubkey) -> String {
    session.orders.iter().position(|o| o.owner == *wallet).map_or("?".to_string(), |i| i.to_string())
}

/// Everything in a session that a call may change.
pub fn digest(s: &Session) -> String {
    format!(
        "{:?} {} {} {} {} {} {} {:?} {:?} {:?} {:x}",
        s.phase,
        s.reserve_price,
        s.reference_mark,
        s.clear_price,
        s.cleared_volume,
        s.rofr_qty,
        s.fills_settled,
        s.orders,
        s.fills,
        s.investor_ids,
        s.skipped_fills
    )
}
