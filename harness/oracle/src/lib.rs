//! The published source, run on session files.
//!
//! The auction engine and credit-math are compiled as published, against small stand-ins for Anchor, the gate, the mark engine and
//! the rails. What is written by hand here, and so says nothing about the source: the reader of a file, the listing, and the
//! refusals 9 and 4 of any library call, all three from document 01; and the words of document 02's causes.
mod causes;
pub mod engine;
pub mod functions;
pub mod generate;
mod listing;
pub mod options;
pub mod random;
mod reader;
pub mod record;
pub mod single_call;

pub use auction_engine::{Phase, MAX_FILLS, MAX_ORDERS};
pub use causes::causes;
pub use listing::{listing, listing_with_states, quick_listing};
pub use reader::{session_after, width, MAX_DECIMALS, MAX_FILE};
