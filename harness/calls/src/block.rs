//! A case in the bytes that the program `single_calls` reads.
use crate::case::{bytes, Call, Case, Fill, Header, Order};
use oracle::{MAX_FILLS, MAX_ORDERS};

const HEADER: usize = 92;
const FIGURES: usize = 49;
const ORDER: usize = 93;
const FILL: usize = 74;
const CALL: usize = 75;

/// The places of the two counts, each before its array.
const ORDERS: usize = HEADER + FIGURES;
const FILLS: usize = ORDERS + 1 + MAX_ORDERS * ORDER;
const END: usize = FILLS + 1 + MAX_FILLS * FILL;

pub fn block(case: &Case) -> Vec<u8> {
    let mut b = Vec::with_capacity(END + CALL);
    header(&mut b, &case.header);
    b.push(case.phase);
    case.figures.iter().for_each(|f| b.extend(f.to_le_bytes()));
    b.extend(case.fills_settled.to_le_bytes());
    b.extend(case.skipped.to_le_bytes());
    b.push(case.orders.len() as u8);
    case.orders.iter().take(MAX_ORDERS).for_each(|o| order(&mut b, o));
    b.resize(FILLS, case.past);
    b.push(case.fills.len() as u8);
    case.fills.iter().take(MAX_FILLS).for_each(|f| fill(&mut b, f));
    b.resize(END, case.past);
    call(&mut b, &case.call);
    assert_eq!(b.len(), END + CALL);
    b
}

fn header(b: &mut Vec<u8>, h: &Header) {
    h.times.iter().for_each(|t| b.extend(t.to_le_bytes()));
    b.extend(h.max_cash.to_le_bytes());
    b.extend([h.min_reveals, u8::from(h.forced)]);
    b.extend(bytes::<32>(h.authority));
    b.push(u8::from(h.mark));
    b.extend(h.reserve.to_le_bytes());
    b.extend(h.reference.to_le_bytes());
    b.push(h.policy);
    b.extend(h.band_bps.to_le_bytes());
}

fn order(b: &mut Vec<u8>, o: &Order) {
    b.extend(bytes::<32>(o.owner));
    b.push(o.side);
    b.extend(o.escrowed.to_le_bytes());
    b.push(u8::from(o.revealed));
    [o.limit, o.qty, o.alloc, o.alloc_left].iter().for_each(|x| b.extend(x.to_le_bytes()));
    b.extend([u8::from(o.screened), u8::from(o.eligible)]);
    b.extend(bytes::<16>(o.id));
    b.push(o.exclusion);
}

fn fill(b: &mut Vec<u8>, f: &Fill) {
    b.extend(bytes::<32>(f.buyer));
    b.extend(bytes::<32>(f.seller));
    b.extend(f.qty.to_le_bytes());
    b.extend([u8::from(f.rofr), u8::from(f.settled)]);
}

fn call(b: &mut Vec<u8>, c: &Call) {
    b.push(c.kind);
    b.extend(c.now.to_le_bytes());
    b.extend([c.order, c.side, c.verdict]);
    b.extend(bytes::<16>(c.id));
    b.push(c.max_fills);
    b.extend(bytes::<32>(c.wallet));
    b.extend(c.fill.to_le_bytes());
    b.extend(c.qty.to_le_bytes());
    b.extend([c.reason, u8::from(c.has_id)]);
}
