//! Stand-in: a feed whose pico is the price itself, so that reserve and reference are given numbers. With `open_mark` at
//! (reserve, reference) and no discount, `compute_clear` gets exactly them.
use anchor_lang::prelude::*;

declare_id!("MarkMarkMarkMarkMarkMarkMarkMarkMarkMark");

#[derive(Clone, Copy, Debug, PartialEq, Eq)]
pub enum PrintPolicy {
    Public,
    Banded,
    AggregateOnly,
    DataRoom,
}

#[derive(Clone, Copy, Debug)]
pub struct FeedParams {
    pub print_policy: PrintPolicy,
    pub band_bps: u64,
}

#[derive(Clone, Debug)]
pub struct Feed {
    pub asset_mint: Pubkey,
    pub asset_decimals: u8,
    pub params: FeedParams,
    pub nav_pico: u128,
    pub computed_ts: i64,
    pub standstill: bool,
    pub reserve: u64,
    pub reference: u64,
}

impl Feed {
    pub fn nav_effective(&self, _now: i64) -> Result<u128> {
        Ok(u128::from(self.reserve))
    }
    pub fn mark_protective(&self, _now: i64) -> Result<u128> {
        Ok(u128::from(self.reference))
    }
    pub fn is_standstill(&self, _now: i64) -> bool {
        self.standstill
    }
    pub fn pico_to_price(&self, pico: u128) -> Result<u64> {
        Ok(u64::try_from(pico).expect("a given 64-bit price"))
    }
    pub fn price_to_pico(&self, price: u64) -> Result<u128> {
        Ok(u128::from(price))
    }
}

#[derive(Clone, Copy, Debug)]
pub struct PrintInput {
    pub session: Pubkey,
    pub price: u64,
    pub volume: u64,
    pub n_investor_ids: u16,
    pub forced_sale: bool,
}

pub mod cpi {
    use anchor_lang::prelude::*;

    pub mod accounts {
        use anchor_lang::prelude::*;
        pub struct RecordPrint<'info> {
            pub feed: AccountInfo<'info>,
            pub record: AccountInfo<'info>,
            pub print_source: AccountInfo<'info>,
            pub payer: AccountInfo<'info>,
            pub system_program: AccountInfo<'info>,
        }
    }

    /// What the engine offered: recorded beside the events, never listed.
    pub fn record_print(_c: CpiContext<accounts::RecordPrint<'_>>, print: super::PrintInput) -> Result<()> {
        emit!(print);
        Ok(())
    }
}
