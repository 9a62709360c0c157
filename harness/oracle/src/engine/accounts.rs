//! The accounts that the published calls ask for, made so that every check of accounts, keys and rails passes.
use anchor_lang::prelude::*;
use anchor_lang::system_program;
use auction_engine as source;
use std::marker::PhantomData;

pub const VENUE: Pubkey = Pubkey::from_text("venue");
pub const SESSION: Pubkey = Pubkey::from_text("session");
pub const MINT: Pubkey = Pubkey::from_text("mint");
pub const FEED: Pubkey = Pubkey::from_text("feed");
pub const RAILS_SESSION: Pubkey = Pubkey::from_text("rails session");
pub const ATTESTATION: Pubkey = Pubkey::from_text("attestation");
pub const OTHER: Pubkey = Pubkey::from_text("any other account");

pub type Info = AccountInfo<'static>;
pub type Unchecked = UncheckedAccount<'static>;
pub type Held<T> = Box<Account<'static, T>>;

pub fn info(key: Pubkey) -> Info {
    AccountInfo::new(key, &system_program::ID, Vec::new())
}

pub fn unchecked(key: Pubkey) -> Unchecked {
    UncheckedAccount { info: info(key) }
}

pub fn signer(key: Pubkey) -> Signer<'static> {
    Signer { info: info(key) }
}

pub fn program<T>(key: Pubkey) -> Program<'static, T> {
    Program { info: info(key), marker: PhantomData }
}

pub fn held<T>(key: Pubkey, account: T) -> Held<T> {
    Box::new(Account { account, info: info(key) })
}

pub fn operator() -> Pubkey {
    source::operator_pda().0
}

pub fn venue() -> Held<source::Venue> {
    let venue = source::Venue {
        authority: OTHER,
        forced_sale_opener: OTHER,
        sessions: 1,
        bump: 255,
        operator_bump: 255,
        print_bump: 255,
    };
    held(VENUE, venue)
}

pub fn gate_config() -> Held<credit_gate::MarketConfig> {
    held(OTHER, credit_gate::MarketConfig { seasoning_seconds: 0, bump: 255 })
}

pub fn gate_policy() -> Held<credit_gate::MarketPolicy> {
    held(OTHER, credit_gate::MarketPolicy { bump: 255 })
}

/// A gate's account at its address. Without data it does not exist.
pub fn gate(seed: &[u8], tail: &[u8], data: Option<Vec<u8>>) -> Unchecked {
    let key = Pubkey::find_program_address(&[seed, MINT.as_ref(), tail], &credit_gate::ID).0;
    match data {
        Some(data) => UncheckedAccount { info: AccountInfo::new(key, &credit_gate::ID, data) },
        None => unchecked(key),
    }
}

pub fn block_entry(owner: &Pubkey, blocked: bool) -> Unchecked {
    gate(credit_gate::BlockEntry::SEED, owner.as_ref(), blocked.then(|| vec![1]))
}

pub fn holder_link(owner: &Pubkey, id: Option<[u8; 16]>) -> Unchecked {
    let data = id.map(|id| [&id[..], ATTESTATION.as_ref(), ATTESTATION.as_ref()].concat());
    gate(credit_gate::HolderLink::SEED, owner.as_ref(), data)
}

pub fn attestation(rejected: bool, id: [u8; 16]) -> Unchecked {
    let mut data = vec![u8::from(rejected)];
    data.extend(id);
    UncheckedAccount { info: AccountInfo::new(ATTESTATION, &system_program::ID, data) }
}

/// What the gate's stand-in answers of a holder's lots.
pub struct Lots {
    pub unexpired: u8,
    pub sellable: u64,
    pub debit: bool,
    pub append: bool,
}

pub const GOOD_LOTS: Lots = Lots { unexpired: 0, sellable: u64::MAX, debit: true, append: true };

pub fn holder_lots(owner: &Pubkey, lots: Option<Lots>) -> Unchecked {
    let data = lots.map(|l| {
        let mut data = vec![l.unexpired];
        data.extend(l.sellable.to_le_bytes());
        data.extend([u8::from(l.debit), u8::from(l.append)]);
        data
    });
    gate(credit_gate::HolderLots::SEED, owner.as_ref(), data)
}

/// `count` accounts of the rails, the named ones in their places.
pub fn rails(count: usize, named: &[(usize, Pubkey)]) -> Vec<Info> {
    let mut all: Vec<Info> = (0..count).map(|_| info(OTHER)).collect();
    for (place, key) in named {
        all[*place] = info(*key);
    }
    all
}

/// The open rails session and the operator.
pub fn rails_session() -> Vec<Info> {
    vec![AccountInfo::new(RAILS_SESSION, &payment_rails::ID, vec![1]), info(operator())]
}

/// Runs one published call. Its context holds `&'info mut T<'info>`, which lends the accounts for as long as they live; so they
/// go through raw boxes and come back afterwards. The only unsafe code of the oracle.
pub fn with<T: Bumps + 'static>(
    accounts: T,
    remaining: Vec<Info>,
    call: impl FnOnce(Context<'static, T>) -> Result<()>,
) -> (T, Result<()>)
where
    T::Bumps: Default,
{
    let accounts = Box::into_raw(Box::new(accounts));
    let remaining: *mut [Info] = Box::into_raw(remaining.into_boxed_slice());
    // Both boxes outlive the call, and nothing of the context survives it: the answer is a `Result<()>`, and the events own what
    // they hold.
    let result = unsafe {
        call(Context {
            program_id: &source::ID,
            accounts: &mut *accounts,
            remaining_accounts: &*remaining,
            bumps: T::Bumps::default(),
        })
    };
    unsafe {
        drop(Box::from_raw(remaining));
        (*Box::from_raw(accounts), result)
    }
}
