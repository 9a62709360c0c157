//! The traits that the published code calls methods of.
use crate::solana_program::instruction::AccountMeta;
use crate::{AccountInfo, Pubkey, Result};

pub trait Key {
    fn key(&self) -> Pubkey;
}

pub trait ToAccountInfo<'info> {
    fn to_account_info(&self) -> AccountInfo<'info>;
}

pub trait ToAccountMetas {
    fn to_account_metas(&self, is_signer: Option<bool>) -> Vec<AccountMeta>;
}

pub trait AccountDeserialize: Sized {
    fn try_deserialize(buf: &mut &[u8]) -> Result<Self>;
}

pub trait InstructionData {
    fn data(&self) -> Vec<u8>;
}

pub trait Space {
    const INIT_SPACE: usize;
}

pub trait Bumps {
    type Bumps;
}
