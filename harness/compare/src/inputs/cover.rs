//! Orders at the edge of their escrow.
use super::fixed::header;
use oracle::record::Order;
use oracle::{MAX_DECIMALS, MAX_ORDERS};

/// A header with each number of decimals, also with those that none may name; then orders that are covered and that are not.
pub fn cover(input: &mut impl FnMut(&[u8])) {
    (0..=255).for_each(|decimals| input(&header(Some(decimals))));
    (0..=MAX_DECIMALS).for_each(|decimals| edges(decimals, input));
    [None, Some(0), Some(MAX_DECIMALS)].into_iter().for_each(|decimals| places(decimals, input));
}

/// A buy and a sell of each pair of figures, with an escrow of what they need, one less and one more.
fn edges(decimals: u8, input: &mut impl FnMut(&[u8])) {
    let scale = 10u64.pow(decimals.into());
    for (limit, qty) in figures(scale) {
        let amount = (u128::from(limit) * u128::from(qty)).div_ceil(scale.into());
        for (side, needed) in [(0, amount), (1, qty.into())] {
            for escrowed in [needed - 1, needed, needed + 1] {
                let escrowed = u64::try_from(escrowed).unwrap_or(u64::MAX);
                input(&opened(decimals.into(), vec![order(1, side, escrowed, true, limit, qty)]));
            }
        }
    }
}

/// Limits and quantities about 10^decimals and at the edges of 64 bits, and for each limit the largest quantity whose amount fits 64
/// bits, and one more.
fn figures(scale: u64) -> Vec<(u64, u64)> {
    let edges = [1, 2, 7, scale.max(2) - 1, scale, scale + 1, 1 << 32, 1 << 63, u64::MAX - 1, u64::MAX];
    let pairs = |limit: u64| {
        let largest = u64::try_from(u128::from(u64::MAX) * u128::from(scale) / u128::from(limit)).unwrap_or(u64::MAX);
        edges.into_iter().chain([largest, largest.saturating_add(1)]).map(move |qty| (limit, qty))
    };
    edges.into_iter().flat_map(pairs).collect()
}

/// Orders with one thing wrong with them, with several and with none: first in a book, last in a full one and beyond it, of an owner
/// seen or not.
fn places(decimals: Option<u8>, input: &mut impl FnMut(&[u8])) {
    for before in [0, MAX_ORDERS - 1, MAX_ORDERS] {
        for (owner, side) in [(0, 0), (0, 1), (0, 2), (99, 0), (99, 1), (99, 2)] {
            for (revealed, limit, qty) in [(true, 3, 2), (true, 0, 2), (true, 3, 0), (false, 3, 2), (false, 0, 0)] {
                for escrowed in [0, 1, 5, 6] {
                    let mut orders: Vec<Order> = (0..before as u8).map(|i| order(i, i % 2, 6, true, 3, 2)).collect();
                    orders.push(order(owner, side, escrowed, revealed, limit, qty));
                    input(&opened(decimals, orders));
                }
            }
        }
    }
}

fn order(owner: u8, side: u8, escrowed: u64, revealed: bool, limit: u64, qty: u64) -> Order {
    Order { owner: [owner; 32], side, escrowed, revealed, limit, qty }
}

fn opened(decimals: Option<u8>, orders: Vec<Order>) -> Vec<u8> {
    let mut file = header(decimals);
    orders.iter().for_each(|o| o.write(&mut file));
    file
}
