//! The entries of the static library `harness_entries`, on parallel slices, behind safe functions.
use crate::case::Case;
use crate::words;
use host::Figures;

extern "C" {
    fn entry_find_uniform_clear_price(
        is_buy: *const bool,
        is_buy_len: usize,
        limits: *const u64,
        limits_len: usize,
        qtys: *const u64,
        qtys_len: usize,
        reserve: u64,
        reference: u64,
    ) -> Figures;
    fn entry_allocate_pro_rata(
        total: u64,
        ids: *const u64,
        ids_len: usize,
        qtys: *const u64,
        qtys_len: usize,
        out: *mut u64,
        out_len: usize,
    ) -> u8;
}

pub fn answer(case: &Case) -> String {
    match case {
        Case::Price { is_buy, limits, qtys, reserve, reference } => price(is_buy, limits, qtys, *reserve, *reference),
        Case::ProRata { total, ids, qtys } => pro_rata(*total, ids, qtys, qtys.len()),
    }
}

pub fn price(is_buy: &[bool], limits: &[u64], qtys: &[u64], reserve: u64, reference: u64) -> String {
    let (sides, sides_len) = (is_buy.as_ptr(), is_buy.len());
    let (limits, limits_len) = (limits.as_ptr(), limits.len());
    let (qtys, qtys_len) = (qtys.as_ptr(), qtys.len());
    // Each pointer goes with its slice's length, and the entry reads no further.
    let f = unsafe { entry_find_uniform_clear_price(sides, sides_len, limits, limits_len, qtys, qtys_len, reserve, reference) };
    words::price(f.answer())
}

/// The lots, in an output with room for so many.
pub fn pro_rata(total: u64, ids: &[u64], qtys: &[u64], room: usize) -> String {
    let (ids, ids_len) = (ids.as_ptr(), ids.len());
    let (qtys, qtys_len) = (qtys.as_ptr(), qtys.len());
    // As above; the output is lent for the call alone.
    words::lots(room, |out| unsafe { entry_allocate_pro_rata(total, ids, ids_len, qtys, qtys_len, out.as_mut_ptr(), out.len()) })
}
