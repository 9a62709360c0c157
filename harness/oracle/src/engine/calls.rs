//! The nine calls, and the reveal of an order, each through its published function.
use super::accounts::*;
use super::screening::{self, Screen};
use super::State;
use crate::record::{Call, Order};
use anchor_lang::prelude::{Pubkey, Result};
use anchor_lang::system_program;
use auction_engine::{self as source, auction_engine as calls, Session};

pub fn run(state: State, call: &Call) -> (Session, Result<()>) {
    match *call {
        Call::Screen { now, order, side, verdict, id } => screening::run(state, &Screen { now, order, side, verdict, id }),
        Call::Clear { .. } => clear_or_expire(state, true),
        Call::Allocate { max_fills, .. } => allocate(state.session, max_fills),
        Call::Exercise { issuer, fill, qty, .. } => exercise(state.session, Pubkey(issuer), fill, qty),
        Call::Close { caller, .. } => close(state.session, Pubkey(caller)),
        Call::Settle { fill } => settle(state.session, fill),
        Call::Skip { fill, reason, .. } => skip(state.session, fill, reason),
        Call::Finish { .. } => finish(state),
        Call::Expire { .. } => clear_or_expire(state, false),
    }
}

/// Both published calls take the same accounts.
fn clear_or_expire(state: State, clear: bool) -> (Session, Result<()>) {
    let accounts = source::Clear {
        venue: venue(),
        session: held(SESSION, state.session),
        feed: held(FEED, state.feed),
        operator: unchecked(operator()),
        rails_program: unchecked(payment_rails::ID),
    };
    let (a, result) = with(accounts, rails_session(), if clear { calls::clear } else { calls::expire });
    (a.session.account, result)
}

fn allocate(s: Session, max_fills: u8) -> (Session, Result<()>) {
    let accounts = source::Crank { session: held(SESSION, s) };
    let (a, result) = with(accounts, Vec::new(), |c| calls::allocate(c, max_fills));
    (a.session.account, result)
}

fn exercise(s: Session, issuer: Pubkey, fill: u32, qty: u64) -> (Session, Result<()>) {
    let (_, seller) = wallets(&s, fill);
    let rails = rails(23, &[(1, RAILS_SESSION), (3, issuer), (5, escrow(&seller))]);
    let accounts = source::ExerciseRofr {
        venue: venue(),
        session: held(SESSION, s),
        issuer: signer(issuer),
        operator: unchecked(operator()),
        rails_program: unchecked(payment_rails::ID),
        system_program: program(system_program::ID),
    };
    let (a, result) = with(accounts, rails, |c| calls::exercise_rofr(c, fill, qty));
    (a.session.account, result)
}

fn close(s: Session, caller: Pubkey) -> (Session, Result<()>) {
    let accounts = source::CloseRofr { session: held(SESSION, s), caller: signer(caller) };
    let (a, result) = with(accounts, Vec::new(), calls::close_rofr);
    (a.session.account, result)
}

fn settle(s: Session, fill: u32) -> (Session, Result<()>) {
    let (buyer, seller) = wallets(&s, fill);
    let rails = rails(28, &[(1, RAILS_SESSION), (4, escrow(&buyer)), (6, escrow(&seller))]);
    let accounts = source::Settle {
        venue: venue(),
        session: held(SESSION, s),
        operator: unchecked(operator()),
        payer: signer(OTHER),
        rails_program: unchecked(payment_rails::ID),
        system_program: program(system_program::ID),
    };
    let (a, result) = with(accounts, rails, |c| calls::settle(c, fill));
    (a.session.account, result)
}

/// With the accounts for which the gate's stand-in comes to the reason.
fn skip(s: Session, fill: u32, reason: u8) -> (Session, Result<()>) {
    let (buyer, seller) = wallets(&s, fill);
    let attested = if reason == 4 { [8; 16] } else { [7; 16] };
    let accounts = source::SkipFill {
        session: held(SESSION, s),
        gate_config: gate_config(),
        gate_policy: gate_policy(),
        seller_block: block_entry(&seller, reason == 1),
        buyer_block: block_entry(&buyer, false),
        buyer_link: holder_link(&buyer, (reason != 2).then_some([7; 16])),
        identity_attestation: attestation(reason == 3, attested),
        accreditation_attestation: unchecked(ATTESTATION),
        seller_lots: holder_lots(&seller, Some(Lots { debit: reason != 6, ..GOOD_LOTS })),
        buyer_lots: holder_lots(&buyer, Some(Lots { append: reason != 5, ..GOOD_LOTS })),
    };
    let (a, result) = with(accounts, Vec::new(), |c| calls::skip_fill(c, fill));
    (a.session.account, result)
}

fn finish(state: State) -> (Session, Result<()>) {
    let accounts = source::Finish {
        venue: venue(),
        session: held(SESSION, state.session),
        feed: held(FEED, state.feed),
        print_record: unchecked(OTHER),
        print_authority: unchecked(source::print_pda().0),
        operator: unchecked(operator()),
        payer: signer(OTHER),
        rails_program: unchecked(payment_rails::ID),
        mark_program: unchecked(mark_engine::ID),
        system_program: program(system_program::ID),
    };
    let (a, result) = with(accounts, rails_session(), calls::finish);
    (a.session.account, result)
}

/// By its owner, with the rails' accounts for it.
pub fn reveal(s: Session, o: &Order) -> Result<()> {
    let owner = Pubkey(o.owner);
    let rails = rails(3, &[(0, RAILS_SESSION), (1, escrow(&owner))]);
    let accounts = source::Reveal {
        venue: venue(),
        session: held(SESSION, s),
        owner: signer(owner),
        operator: unchecked(operator()),
        rails_program: unchecked(payment_rails::ID),
    };
    with(accounts, rails, |c| calls::reveal(c, o.limit, o.qty, [0; 32])).1
}

/// Buyer and seller of a fill, or others where there is none.
fn wallets(s: &Session, fill: u32) -> (Pubkey, Pubkey) {
    s.fills.get(fill as usize).map_or((OTHER, OTHER), |f| (f.buyer, f.seller))
}

fn escrow(owner: &Pubkey) -> Pubkey {
    source::rails_escrow(&RAILS_SESSION, owner)
}
