//! The functions of the static library `order_slices`, on records.
use crate::case::Case;
use crate::words;
use host::{allocate_pro_rata_into, find_uniform_clear_price, Bid, Order};

pub fn answer(case: &Case) -> String {
    match case {
        Case::Price { is_buy, limits, qtys, reserve, reference } => {
            let order = |i: usize| Order { bidder_id: i as u64, limit_price: limits[i], qty: qtys[i], is_buy: is_buy[i] };
            let orders: Vec<Order> = (0..is_buy.len()).map(order).collect();
            words::price(find_uniform_clear_price(&orders, *reserve, *reference))
        }
        Case::ProRata { total, ids, qtys } => {
            let bids: Vec<Bid> = ids.iter().zip(qtys).map(|(&id, &qty)| Bid { id, qty }).collect();
            words::lots(bids.len(), |out| allocate_pro_rata_into(*total, &bids, out).err().map_or(0, |r| r.number()))
        }
    }
}
