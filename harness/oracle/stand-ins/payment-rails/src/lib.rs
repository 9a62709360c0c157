//! Stand-in: the names that the auction engine uses. Every call of the rails succeeds (`invoke` and `invoke_signed` answer `Ok`).
use anchor_lang::prelude::*;

declare_id!("RaiLsRaiLsRaiLsRaiLsRaiLsRaiLsRaiLsRaiLs");

#[derive(Clone, Copy, Debug, PartialEq, Eq)]
pub enum SessionStatus {
    Open,
    Settling,
}

pub struct CashSession {
    pub status: SessionStatus,
}

impl CashSession {
    pub const SEED: &'static [u8] = b"cash_session";
    pub const INIT_SPACE: usize = 0;
}

/// One byte, 1 for open.
impl AccountDeserialize for CashSession {
    fn try_deserialize(buf: &mut &[u8]) -> Result<Self> {
        Ok(CashSession {
            status: match buf.first() {
                Some(1) => SessionStatus::Open,
                _ => SessionStatus::Settling,
            },
        })
    }
}

pub struct Escrow;

impl Escrow {
    pub const SEED: &'static [u8] = b"escrow";
}

pub struct FillReceipt;

impl FillReceipt {
    pub const INIT_SPACE: usize = 0;
}

pub struct SessionParams {
    pub commit_end: i64,
    pub reveal_end: i64,
    pub settle_deadline: i64,
    pub bond_amount: u64,
    pub max_cash: u64,
    pub rofr_authority: Pubkey,
}

pub mod instruction {
    use anchor_lang::InstructionData;

    macro_rules! call {
        ($name:ident { $($f:ident: $t:ty),* }) => {
            pub struct $name { $(pub $f: $t),* }
            impl InstructionData for $name {
                fn data(&self) -> Vec<u8> {
                    Vec::new()
                }
            }
        };
    }

    call!(OpenSession { session_id: u64, params: super::SessionParams });
    call!(Deposit { cash: u64 });
    call!(DepositAsk { qty: u64 });
    call!(MarkRevealed {});
    call!(FailSession {});
    call!(FinishSession {});
    call!(SettleRofrFill { fill_index: u32, qty: u64, price: u64, disclosure_hash: [u8; 32] });
    call!(SettleFill { fill_index: u32, qty: u64, price: u64, disclosure_hash: [u8; 32] });
}
