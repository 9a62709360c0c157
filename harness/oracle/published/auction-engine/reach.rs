// Included by the stand-in `#[program]` into the published file's own module, whose private functions a child module may call.
// Nothing of the published file is changed by it.
pub mod reach {
    use super::*;

    pub fn begin_screen(session: &mut Account<Session>, order_index: u8, side: Side, now: i64) -> Result<(Pubkey, Pubkey)> {
        super::begin_screen(session, order_index, side, now)
    }

    pub fn finish_screen(
        session_key: Pubkey,
        session: &mut Session,
        order_index: u8,
        owner: Pubkey,
        investor_id: Option<[u8; 16]>,
        exclusion: Option<Exclusion>,
    ) {
        super::finish_screen(session_key, session, order_index, owner, investor_id, exclusion)
    }

    pub fn investor_exclusion(session: &Session, index: u8, id: [u8; 16]) -> Option<Exclusion> {
        super::investor_exclusion(session, index, id)
    }

    /// Price, volume and each order's lot, unless the session fails.
    pub fn compute_clear(session: &Session, feed: &Feed, now: i64) -> Result<Option<(u64, u64, Vec<u64>)>> {
        let outcome = super::compute_clear(session, feed, now)?;
        Ok(outcome.ok().map(|c| (c.price, c.volume, c.allocations)))
    }

    pub fn band(price: u64, band_bps: u64) -> u64 {
        super::band(price, band_bps)
    }
}
