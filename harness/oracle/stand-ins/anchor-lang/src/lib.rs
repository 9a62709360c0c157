//! Stand-in for anchor-lang 1.x: names and shapes only. Accounts own their key and data, calls to other programs answer `Ok`, and the
//! clock and the events are the oracle's, one of each to a thread.
mod accounts;
pub mod error;
mod keys;
mod recorded;
pub mod solana_program;
pub mod system_program;
mod traits;

pub use accounts::{Account, AccountInfo, Context, CpiContext, Program, ProgramData, Signer, System, UncheckedAccount};
pub use anchor_macros::*;
pub use keys::Pubkey;
pub use recorded::{record_event, set_now, take_events, Clock, Rent};
pub use traits::{AccountDeserialize, Bumps, InstructionData, Key, Space, ToAccountInfo, ToAccountMetas};

pub type Result<T> = core::result::Result<T, error::Error>;

pub mod prelude {
    pub use crate::error::{Error, ProgramError};
    pub use crate::{
        account, declare_id, emit, error, error_code, event, program, require, require_keys_eq, Account, AccountDeserialize,
        AccountInfo, Accounts, AnchorDeserialize, AnchorSerialize, Bumps, Clock, Context, CpiContext, InitSpace, Key, Program,
        ProgramData, Pubkey, Rent, Result, Signer, Space, System, ToAccountInfo, ToAccountMetas, UncheckedAccount,
    };
}
