//! The number of fills, before the crank, behind a safe function.
use crate::Refusal;

mod c {
    /// A refusal or 0, and the number of fills.
    #[repr(C)]
    pub struct FillCount {
        pub refusal: u8,
        pub count: u64,
    }

    extern "C" {
        pub fn fill_count(lots: *const u64, lots_len: usize, sides: *const u8, sides_len: usize) -> FillCount;
    }
}

/// The number of fills that the cranks will make, from the lots of at most 16 orders and their sides, 0 a buy and 1 a sell, in book order.
///
/// ```
/// // Buys of 5 and 2 against sells of 4 and 3 make fills of 4, 1 and 2.
/// assert_eq!(host::fill_count(&[5, 2, 4, 3], &[0, 0, 1, 1]), Ok(3));
/// ```
pub fn fill_count(lots: &[u64], sides: &[u8]) -> Result<u64, Refusal> {
    // Each pointer goes with its slice's length; the slices are lent for the call alone.
    let answer = unsafe { c::fill_count(lots.as_ptr(), lots.len(), sides.as_ptr(), sides.len()) };
    if answer.refusal != 0 {
        return Err(Refusal::of(answer.refusal));
    }
    Ok(answer.count)
}
