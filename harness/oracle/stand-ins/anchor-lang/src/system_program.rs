//! Transfers: they always succeed.
use crate::{AccountInfo, CpiContext, Pubkey, Result};

pub const ID: Pubkey = Pubkey([0; 32]);

pub struct Transfer<'info> {
    pub from: AccountInfo<'info>,
    pub to: AccountInfo<'info>,
}

pub fn transfer(_c: CpiContext<Transfer<'_>>, _lamports: u64) -> Result<()> {
    Ok(())
}
