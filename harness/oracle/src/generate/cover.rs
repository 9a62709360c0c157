//! Escrows at what an order needs after `SI`, and beside it.
use crate::random::Random;
use crate::record::Order;
use crate::MAX_DECIMALS;
use auction_engine::gross;

/// The order with an escrow that covers it, often just so. A buy that none covers becomes the largest that one does.
pub fn covered(r: &mut Random, order: Order, decimals: u8) -> Order {
    let order = Order { qty: order.qty.min(largest(&order, decimals)), ..order };
    let needed = needed(&order, decimals);
    let escrowed = r.pick(&[needed, needed, needed.saturating_add(1), needed.max(order.escrowed)]);
    Order { escrowed, ..order }
}

/// The order with an escrow too small by one, which may be 0; or of an amount above 64 bits, where a quantity makes one.
pub fn uncovered(r: &mut Random, order: Order, decimals: u8) -> Order {
    let largest = largest(&order, decimals);
    if largest < u64::MAX && r.one_in(2) {
        return Order { qty: r.pick(&[largest + 1, largest + 1, u64::MAX]), escrowed: u64::MAX, ..order };
    }
    let order = Order { qty: order.qty.min(largest), ..order };
    Order { escrowed: needed(&order, decimals) - 1, ..order }
}

/// What the order needs, at most as many decimals as a header may name.
fn needed(order: &Order, decimals: u8) -> u64 {
    match order.side {
        0 => gross(order.qty, order.limit, decimals.min(MAX_DECIMALS)).expect("an amount of 64 bits"),
        _ => order.qty,
    }
}

/// The largest quantity that an escrow covers.
fn largest(order: &Order, decimals: u8) -> u64 {
    let scale = 10u128.pow(u32::from(decimals.min(MAX_DECIMALS)));
    match order.side {
        0 => u64::try_from(u128::from(u64::MAX) * scale / u128::from(order.limit)).unwrap_or(u64::MAX),
        _ => u64::MAX,
    }
}
