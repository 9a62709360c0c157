//! Accounts and the context of a call.
use crate::error::ProgramError;
use crate::{Bumps, Key, Pubkey, ToAccountInfo};
use std::cell::{Ref, RefCell};
use std::marker::PhantomData;
use std::ops::{Deref, DerefMut};
use std::rc::Rc;

#[derive(Clone)]
pub struct AccountInfo<'info> {
    pub key: Pubkey,
    pub owner: &'info Pubkey,
    pub data: Rc<RefCell<Vec<u8>>>,
    pub is_signer: bool,
    pub is_writable: bool,
}

impl<'info> AccountInfo<'info> {
    pub fn new(key: Pubkey, owner: &'info Pubkey, data: Vec<u8>) -> Self {
        AccountInfo { key, owner, data: Rc::new(RefCell::new(data)), is_signer: false, is_writable: false }
    }
    pub fn data_is_empty(&self) -> bool {
        self.data.borrow().is_empty()
    }
    pub fn try_borrow_data(&self) -> Result<Ref<'_, Vec<u8>>, ProgramError> {
        self.data.try_borrow().map_err(|_| ProgramError)
    }
}

impl Key for AccountInfo<'_> {
    fn key(&self) -> Pubkey {
        self.key
    }
}

impl<'info> ToAccountInfo<'info> for AccountInfo<'info> {
    fn to_account_info(&self) -> AccountInfo<'info> {
        self.clone()
    }
}

macro_rules! info_wrapper {
    ($name:ident $(, $t:ident)?) => {
        #[derive(Clone)]
        pub struct $name<'info $(, $t)?> {
            pub info: AccountInfo<'info>,
            $(pub marker: PhantomData<$t>,)?
        }
        impl<'info $(, $t)?> Key for $name<'info $(, $t)?> {
            fn key(&self) -> Pubkey {
                self.info.key
            }
        }
        impl<'info $(, $t)?> ToAccountInfo<'info> for $name<'info $(, $t)?> {
            fn to_account_info(&self) -> AccountInfo<'info> {
                self.info.clone()
            }
        }
        impl<'info $(, $t)?> Deref for $name<'info $(, $t)?> {
            type Target = AccountInfo<'info>;
            fn deref(&self) -> &AccountInfo<'info> {
                &self.info
            }
        }
    };
}

info_wrapper!(Signer);
info_wrapper!(UncheckedAccount);
info_wrapper!(Program, T);

#[derive(Clone)]
pub struct Account<'info, T> {
    pub account: T,
    pub info: AccountInfo<'info>,
}

impl<T> Deref for Account<'_, T> {
    type Target = T;
    fn deref(&self) -> &T {
        &self.account
    }
}

impl<T> DerefMut for Account<'_, T> {
    fn deref_mut(&mut self) -> &mut T {
        &mut self.account
    }
}

impl<T> Key for Account<'_, T> {
    fn key(&self) -> Pubkey {
        self.info.key
    }
}

impl<'info, T> ToAccountInfo<'info> for Account<'info, T> {
    fn to_account_info(&self) -> AccountInfo<'info> {
        self.info.clone()
    }
}

/// The shape of 1.x: the accounts stand behind a unique reference, so that `&mut ctx.accounts.x` works with a `ctx` that is not
/// declared `mut`.
pub struct Context<'info, T: Bumps> {
    pub program_id: &'info Pubkey,
    pub accounts: &'info mut T,
    pub remaining_accounts: &'info [AccountInfo<'info>],
    pub bumps: T::Bumps,
}

pub struct CpiContext<T> {
    pub program_id: Pubkey,
    pub accounts: T,
}

impl<T> CpiContext<T> {
    pub fn new(program_id: Pubkey, accounts: T) -> Self {
        CpiContext { program_id, accounts }
    }
    pub fn new_with_signer(program_id: Pubkey, accounts: T, _seeds: &[&[&[u8]]]) -> Self {
        Self::new(program_id, accounts)
    }
}

#[derive(Clone)]
pub struct System;

#[derive(Clone)]
pub struct ProgramData {
    pub upgrade_authority_address: Option<Pubkey>,
}
