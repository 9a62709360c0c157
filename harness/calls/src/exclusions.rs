//! The exclusion kinds of a case's orders, which the source's session has no field for.
use crate::case::Order;
use oracle::random::Random;

/// The highest kind.
const HIGHEST: u8 = 8;

/// Gives each order a kind that fits it; at times one of them, whichever the call is about, has another.
pub fn set(r: &mut Random, orders: &mut [Order]) {
    for order in orders.iter_mut() {
        order.exclusion = if order.is_excluded() { any(r) } else { 0 };
    }
    if !orders.is_empty() && r.one_in(8) {
        let place = place(r, orders);
        orders[place].exclusion = unfit(r, &orders[place]);
    }
}

/// Half the time that of an excluded order, if there is one: only there is a number above 8 wrong for that alone.
fn place(r: &mut Random, orders: &[Order]) -> usize {
    let excluded: Vec<usize> = (0..orders.len()).filter(|&i| orders[i].is_excluded()).collect();
    if excluded.is_empty() || r.one_in(2) {
        return r.below(orders.len() as u64) as usize;
    }
    r.pick(&excluded)
}

/// A number that is no kind; or none for an excluded order, and any for another.
fn unfit(r: &mut Random, order: &Order) -> u8 {
    if r.one_in(2) {
        let above = HIGHEST + 1 + r.below(u64::from(u8::MAX - HIGHEST)) as u8;
        return r.pick(&[HIGHEST + 1, HIGHEST + 1, u8::MAX, above]);
    }
    match order.is_excluded() {
        true => 0,
        false => any(r),
    }
}

/// Any kind of an excluded order.
fn any(r: &mut Random) -> u8 {
    1 + r.below(HIGHEST.into()) as u8
}

/// What is wrong with an order's kind, if anything is.
pub fn fault(order: &Order) -> Option<&'static str> {
    match (order.exclusion, order.is_excluded()) {
        (kind, _) if kind > HIGHEST => Some("an exclusion kind above 8"),
        (0, true) => Some("an excluded order without a kind"),
        (1.., false) => Some("an exclusion kind on an order that is not excluded"),
        _ => None,
    }
}
