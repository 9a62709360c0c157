//! The price search and pro-rata on records, behind safe functions.
use crate::Refusal;

/// An order, as the price search takes it.
#[repr(C)]
#[derive(Clone, Copy, Debug, PartialEq, Eq)]
pub struct Order {
    pub bidder_id: u64,
    pub limit_price: u64,
    pub qty: u64,
    pub is_buy: bool,
}

/// A quantity with its bidder's id, as pro-rata takes it.
#[repr(C)]
#[derive(Clone, Copy, Debug, PartialEq, Eq)]
pub struct Bid {
    pub id: u64,
    pub qty: u64,
}

/// A single price, and what is executed at it.
#[derive(Clone, Copy, Debug, PartialEq, Eq)]
pub struct Cross {
    pub price: u64,
    pub volume: u128,
}

/// What the price search answers, in numbers: a refusal or 0, whether there is a cross, its price and the two words of its volume.
#[repr(C)]
pub struct Figures {
    refusal: u8,
    crosses: bool,
    price: u64,
    volume_hi: u64,
    volume_lo: u64,
}

impl Figures {
    pub fn answer(&self) -> Result<Option<Cross>, Refusal> {
        if self.refusal != 0 {
            return Err(Refusal::of(self.refusal));
        }
        let volume = u128::from(self.volume_hi) << 64 | u128::from(self.volume_lo);
        Ok(self.crosses.then_some(Cross { price: self.price, volume }))
    }
}

mod c {
    use super::{Bid, Figures, Order};

    extern "C" {
        pub fn find_uniform_clear_price(orders: *const Order, orders_len: usize, reserve: u64, reference: u64) -> Figures;
        pub fn allocate_pro_rata(total: u64, bids: *const Bid, bids_len: usize, out: *mut u64, out_len: usize) -> u8;
    }
}

/// The best price of at most 16 orders, or none where nothing crosses at or above the reserve.
///
/// ```
/// use host::{find_uniform_clear_price, Cross, Order};
/// let buy = Order { bidder_id: 1, limit_price: 10, qty: 5, is_buy: true };
/// let sell = Order { bidder_id: 2, limit_price: 8, qty: 5, is_buy: false };
/// assert_eq!(find_uniform_clear_price(&[buy, sell], 0, 9), Ok(Some(Cross { price: 8, volume: 5 })));
/// assert_eq!(find_uniform_clear_price(&[buy, sell], 11, 9), Ok(None));
/// ```
pub fn find_uniform_clear_price(orders: &[Order], reserve: u64, reference: u64) -> Result<Option<Cross>, Refusal> {
    // The pointer goes with the slice's length, and the slice is lent for the call alone.
    unsafe { c::find_uniform_clear_price(orders.as_ptr(), orders.len(), reserve, reference) }.answer()
}

/// The lots of a total over at most 16 bids, in the bids' order.
///
/// ```
/// use host::{allocate_pro_rata, Bid};
/// let bids = [Bid { id: 1, qty: 5 }, Bid { id: 2, qty: 3 }];
/// assert_eq!(allocate_pro_rata(7, &bids), Ok(vec![5, 2]));
/// ```
pub fn allocate_pro_rata(total: u64, bids: &[Bid]) -> Result<Vec<u64>, Refusal> {
    let mut lots = vec![0; bids.len()];
    allocate_pro_rata_into(total, bids, &mut lots).map(|()| lots)
}

/// The same into a lent output, which must have one place for each bid. A refusal leaves it as it was.
pub fn allocate_pro_rata_into(total: u64, bids: &[Bid], lots: &mut [u64]) -> Result<(), Refusal> {
    // As above; the two slices cannot overlap.
    let refusal = unsafe { c::allocate_pro_rata(total, bids.as_ptr(), bids.len(), lots.as_mut_ptr(), lots.len()) };
    if refusal != 0 {
        return Err(Refusal::of(refusal));
    }
    Ok(())
}
