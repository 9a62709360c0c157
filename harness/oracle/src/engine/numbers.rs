//! Document 01's numbers, and the source's values for them.
use anchor_lang::prelude::Error;
use auction_engine::{AuctionError, Exclusion, FailReason, Phase, Side};
use mark_engine::PrintPolicy;

pub fn side_of(number: u8) -> Side {
    if number == 0 {
        Side::Buy
    } else {
        Side::Sell
    }
}

pub fn policy_of(number: u8) -> PrintPolicy {
    use PrintPolicy::*;
    [Public, Banded, AggregateOnly, DataRoom][usize::from(number)]
}

pub fn phase_of(number: u8) -> Phase {
    use Phase::*;
    [Commit, Reveal, Allocating, IssuerRofr, Settling, Printed, Failed, Clearing][usize::from(number)]
}

/// The exclusion that a verdict is; 0 is none.
pub fn exclusion_of(verdict: u8) -> Option<Exclusion> {
    use Exclusion::*;
    let all = [Blocklisted, NotAdmitted, AttestationRejected, InvestorIdChanged, LotLedgerFull, NotSeasoned];
    (verdict > 0).then(|| all[usize::from(verdict) - 1])
}

pub fn reason_number(reason: FailReason) -> u8 {
    match reason {
        FailReason::TooFewReveals => 1,
        FailReason::NoCross => 2,
        FailReason::MarkUnavailable => 3,
        FailReason::Deadline => 4,
    }
}

/// The number of an error of a call.
pub fn refusal_of(error: Error) -> u8 {
    use AuctionError::*;
    let from_ten = [
        WrongPhase,
        OutsideWindow,
        NoOrder,
        WrongSide,
        NotRevealed,
        AlreadyScreened,
        ScreeningPending,
        MathOverflow,
        BookFull,
        NotRofrAuthority,
        ZeroAmount,
        NoFill,
        RofrExceedsFill,
        FillSettled,
        FillSettleable,
        FillsPending,
    ];
    let place = from_ten.iter().position(|e| Error::from(*e) == error);
    10 + place.unwrap_or_else(|| panic!("no number for {error:?}")) as u8
}

/// The number of an error of `reveal`: 31 where the escrow does not cover the order, as none does where the amount is above 64 bits; 6
/// where limit or quantity is 0.
pub fn reveal_refusal_of(error: Error) -> u8 {
    use AuctionError::*;
    let numbers = [(BidExceedsEscrow, 31), (AskExceedsEscrow, 31), (MathOverflow, 31), (ZeroAmount, 6)];
    let found = numbers.iter().find(|(e, _)| Error::from(*e) == error);
    found.unwrap_or_else(|| panic!("no number for {error:?} of a reveal")).1
}
