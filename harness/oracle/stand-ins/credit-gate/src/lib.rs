//! Stand-in: the gate answers what the bytes of the accounts that it is shown say. The oracle writes those bytes, so it dictates
//! every verdict and id.
use anchor_lang::prelude::*;

declare_id!("GateGateGateGateGateGateGateGateGateGate");

pub const MAX_LOTS: usize = 64;

#[derive(Clone)]
pub struct MarketConfig {
    pub seasoning_seconds: i64,
    pub bump: u8,
}

impl MarketConfig {
    pub const SEED: &'static [u8] = b"market_config";
}

#[derive(Clone)]
pub struct MarketPolicy {
    pub bump: u8,
}

impl MarketPolicy {
    pub const SEED: &'static [u8] = b"market_policy";
}

pub struct BlockEntry;

impl BlockEntry {
    pub const SEED: &'static [u8] = b"block";
}

/// Data: id 16, identity attestation 32, accreditation attestation 32.
pub struct HolderLink {
    pub investor_id: [u8; 16],
    pub identity_attestation: Pubkey,
    pub accreditation_attestation: Pubkey,
}

impl HolderLink {
    pub const SEED: &'static [u8] = b"holder_link";
}

impl AccountDeserialize for HolderLink {
    fn try_deserialize(buf: &mut &[u8]) -> Result<Self> {
        Ok(HolderLink {
            investor_id: buf[..16].try_into().unwrap(),
            identity_attestation: Pubkey(buf[16..48].try_into().unwrap()),
            accreditation_attestation: Pubkey(buf[48..80].try_into().unwrap()),
        })
    }
}

pub struct InvestorRecord;

impl InvestorRecord {
    pub const SEED: &'static [u8] = b"investor";
}

impl AccountDeserialize for InvestorRecord {
    fn try_deserialize(_buf: &mut &[u8]) -> Result<Self> {
        Ok(InvestorRecord)
    }
}

pub struct Lot {
    pub restriction_expiry: i64,
}

pub enum LotSource {
    AuctionSettle,
}

/// Data: unexpired lots 1, sellable 8, debit answers 1, append answers 1.
pub struct HolderLots {
    lots: Vec<Lot>,
    sellable: u64,
    debit: bool,
    append: bool,
}

impl HolderLots {
    pub const SEED: &'static [u8] = b"holder_lots";
    pub fn live(&self) -> &[Lot] {
        &self.lots
    }
    pub fn sellable(&self, _now: i64) -> Result<u64> {
        Ok(self.sellable)
    }
    pub fn debit(&mut self, _qty: u64, _now: i64) -> Result<()> {
        self.debit.then_some(()).ok_or(Error { code: 2 })
    }
    pub fn append(&mut self, _qty: u64, _now: i64, _seasoning: i64, _source: LotSource, _flag: bool, _n: u64) -> Result<()> {
        self.append.then_some(()).ok_or(Error { code: 2 })
    }
}

impl AccountDeserialize for HolderLots {
    fn try_deserialize(buf: &mut &[u8]) -> Result<Self> {
        Ok(HolderLots {
            lots: (0..buf[0]).map(|_| Lot { restriction_expiry: i64::MAX }).collect(),
            sellable: u64::from_le_bytes(buf[1..9].try_into().unwrap()),
            debit: buf[9] == 1,
            append: buf[10] == 1,
        })
    }
}

/// Blocked when the entry's first byte is 1.
pub fn screen(_config: &MarketConfig, entry: &AccountInfo) -> Result<Option<()>> {
    Ok((entry.try_borrow_data()?.first() == Some(&1)).then_some(()))
}

pub struct Identity {
    pub investor_id: [u8; 16],
}

pub struct Eligible {
    pub identity: Identity,
}

/// Data of the identity attestation: 1 for rejected, then the id it names.
pub fn evaluate(
    _config: &MarketConfig,
    _policy: &MarketPolicy,
    _owner: &Pubkey,
    _block: &AccountInfo,
    identity: &AccountInfo,
    _accreditation: &AccountInfo,
    _now: i64,
) -> Result<core::result::Result<Eligible, ()>> {
    let d = identity.try_borrow_data()?;
    if d[0] == 1 {
        return Ok(Err(()));
    }
    Ok(Ok(Eligible { identity: Identity { investor_id: d[1..17].try_into().unwrap() } }))
}

pub mod program {
    #[derive(Clone)]
    pub struct CreditGate;
}

pub mod accounts {
    use anchor_lang::prelude::*;
    use anchor_lang::solana_program::instruction::AccountMeta;
    pub struct ProjectAndCheck {
        pub config: Pubkey,
        pub policy: Pubkey,
        pub investor: Pubkey,
        pub mint: Pubkey,
    }
    impl ToAccountMetas for ProjectAndCheck {
        fn to_account_metas(&self, _is_signer: Option<bool>) -> Vec<AccountMeta> {
            Vec::new()
        }
    }
}

pub mod instruction {
    pub struct ProjectAndCheck {
        pub _investor_id: [u8; 16],
    }
    impl anchor_lang::InstructionData for ProjectAndCheck {
        fn data(&self) -> Vec<u8> {
            Vec::new()
        }
    }
}
