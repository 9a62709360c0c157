//! The published functions that the documents name as public, and `gross`, on their own, in words: a line asks, a line answers.
//!
//! `prorata TOTAL ID:QTY..`, `price RESERVE REFERENCE B|S:QTY@LIMIT..`, `band PRICE BPS`, `disclose POLICY BPS PRICE VOLUME`,
//! `gross QTY PRICE DECIMALS`.
use auction_engine::{disclose, gross, reach::band};
use credit_math::{allocate_pro_rata, find_uniform_clear_price, MathError, Order};
use std::str::FromStr;

pub fn answer(line: &str) -> String {
    let words: Vec<&str> = line.split_ascii_whitespace().collect();
    match words[0] {
        "prorata" => pro_rata(number(words[1]), &words[2..]),
        "price" => price(number(words[1]), number(words[2]), &words[3..]),
        "band" if number::<u64>(words[2]) > 10_000 => "refused 9".to_string(),
        "band" => band(number(words[1]), number(words[2])).to_string(),
        "disclose" if number::<u64>(words[2]) > 10_000 => "refused 9".to_string(),
        "disclose" => disclosed(number(words[1]), number(words[2]), number(words[3]), number(words[4])),
        "gross" => cash(number(words[1]), number(words[2]), number(words[3])),
        other => panic!("no function {other}"),
    }
}

fn number<T: FromStr>(word: &str) -> T {
    word.parse().unwrap_or_else(|_| panic!("a number, not {word}"))
}

fn pair(word: &str, by: char) -> (&str, &str) {
    word.split_once(by).unwrap_or_else(|| panic!("{word} has no {by}"))
}

fn pro_rata(total: u64, bids: &[&str]) -> String {
    if bids.len() > crate::MAX_ORDERS {
        return "refused 30".to_string();
    }
    let bid = |word: &&str| {
        let (id, qty) = pair(word, ':');
        (number::<u64>(id), u128::from(number::<u64>(qty)))
    };
    match allocate_pro_rata(total.into(), &bids.iter().map(bid).collect::<Vec<_>>()) {
        Ok(lots) => lots.iter().map(|(_, lot)| lot.to_string()).collect::<Vec<_>>().join(" "),
        Err(MathError::InvalidInput) => "refused 28".to_string(),
        Err(MathError::OverAllocation) => "refused 29".to_string(),
        Err(e) => format!("error {e:?}"),
    }
}

fn price(reserve: u64, reference: u64, orders: &[&str]) -> String {
    if orders.len() > crate::MAX_ORDERS {
        return "refused 30".to_string();
    }
    let order = |(i, word): (usize, &&str)| {
        let (side, rest) = pair(word, ':');
        let (qty, limit) = pair(rest, '@');
        let (qty, limit_price) = (number::<u64>(qty).into(), number::<u64>(limit).into());
        Order { bidder_id: i as u64, limit_price, qty, is_buy: side == "B" }
    };
    let orders: Vec<Order> = orders.iter().enumerate().map(order).collect();
    match find_uniform_clear_price(&orders, reserve.into(), reference.into()) {
        Ok(Some(c)) => format!("{} {}", c.clear_price, c.executed_qty),
        Ok(None) => "NoCross".to_string(),
        Err(e) => format!("error {e:?}"),
    }
}

/// Nothing where it is above 64 bits.
fn cash(qty: u64, price: u64, decimals: u8) -> String {
    gross(qty, price, decimals).map_or("none".to_string(), |cash| cash.to_string())
}

fn disclosed(policy: u8, bps: u64, price: u64, volume: u64) -> String {
    let (price, volume) = disclose(crate::engine::policy_of(policy), bps, price, volume);
    let word = |x: Option<u64>| x.map_or("-".to_string(), |x| x.to_string());
    format!("{} {}", word(price), word(volume))
}
