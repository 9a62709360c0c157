//! Why there is no answer.
use std::error::Error;
use std::fmt::{Display, Formatter, Result};

/// A refusal, under the documents' number.
#[derive(Clone, Copy, Debug, PartialEq, Eq)]
#[repr(u8)]
pub enum Refusal {
    /// The session file breaks off within a record, or is empty.
    NoRecord = 1,
    /// A record of an unknown mark.
    UnknownMark = 2,
    /// A record out of order.
    OutOfOrder = 3,
    /// A field outside its values, as a side that is neither 0 nor 1.
    BadField = 4,
    /// A header whose times do not go together, or of fewer than 2 reveals.
    InvalidSchedule = 5,
    /// A header or an order with a figure of 0 that must be above, or above that must be 0.
    ZeroFigure = 6,
    /// A seventeenth order.
    OrdersFull = 7,
    /// A second order of one owner.
    DuplicateOrder = 8,
    /// The session is not in the phase that is asked of.
    WrongPhase = 10,
    /// The session has no such order.
    NoOrder = 12,
    /// The session file has more than 65,536 bytes.
    InputTooLong = 26,
    /// The listing or the line is longer than the output.
    OutputTooSmall = 27,
    /// A total above 0 over bids of quantity 0.
    InvalidInput = 28,
    /// A total above the sum of the bids.
    OverAllocation = 29,
    /// Over 16 entries, or slices of unequal length.
    BadLength = 30,
    /// A revealed order that its escrow does not cover.
    ExceedsEscrow = 31,
}

const ALL: [Refusal; 16] = [
    Refusal::NoRecord,
    Refusal::UnknownMark,
    Refusal::OutOfOrder,
    Refusal::BadField,
    Refusal::InvalidSchedule,
    Refusal::ZeroFigure,
    Refusal::OrdersFull,
    Refusal::DuplicateOrder,
    Refusal::WrongPhase,
    Refusal::NoOrder,
    Refusal::InputTooLong,
    Refusal::OutputTooSmall,
    Refusal::InvalidInput,
    Refusal::OverAllocation,
    Refusal::BadLength,
    Refusal::ExceedsEscrow,
];

impl Refusal {
    /// The documents' number.
    pub fn number(self) -> u8 {
        self as u8
    }

    /// The refusal of a number that a function of the library answered. Their contracts leave no other.
    pub(crate) fn of(number: u8) -> Refusal {
        let named = ALL.into_iter().find(|r| r.number() == number);
        named.unwrap_or_else(|| unreachable!("the library refused with {number}"))
    }
}

impl Display for Refusal {
    fn fmt(&self, f: &mut Formatter) -> Result {
        let why = match self {
            Refusal::NoRecord => "the session file is empty or breaks off within a record",
            Refusal::UnknownMark => "a record has an unknown mark",
            Refusal::OutOfOrder => "a record is out of order",
            Refusal::BadField => "a field is outside its values",
            Refusal::InvalidSchedule => "the header's times do not go together",
            Refusal::ZeroFigure => "a figure is 0 that must be above, or above that must be 0",
            Refusal::OrdersFull => "there are over 16 orders",
            Refusal::DuplicateOrder => "an owner has two orders",
            Refusal::WrongPhase => "the session is not just cleared",
            Refusal::NoOrder => "there is no such order",
            Refusal::InputTooLong => "the session file has more than 65,536 bytes",
            Refusal::OutputTooSmall => "the listing or the line is longer than the output",
            Refusal::InvalidInput => "a total above 0 has nothing to be shared over",
            Refusal::OverAllocation => "the total is above the sum of the bids",
            Refusal::BadLength => "there are over 16 entries, or slices of unequal length",
            Refusal::ExceedsEscrow => "the escrow does not cover the order",
        };
        write!(f, "{why} (refusal {})", self.number())
    }
}

impl Error for Refusal {}
