//! One call on any session at all, also on those that no file leads to: a line of words asks, a line answers.
//!
//! The words: the header's 12 (as in `SH`, keys in hex), phase, clear_price, cleared_volume, reserve_price, reference_mark, rofr_qty,
//! fills_settled, skipped_fills, the number of orders, of each order 12 (owner side escrowed revealed limit qty alloc alloc_left
//! screened eligible exclusion id), the number of fills, of each fill 5 (buyer seller qty rofr settled), then the record's mark and fields,
//! or `--` and the kind of a call that no record has.
//!
//! The answer: the refusal, `|`, the lines joined with `;`, `|`, the session from its phase on in the same words.
//!
//! The source's session keeps no exclusions: they stand beside it here, and an accepted screen sets its order's to that of its event.
use crate::engine::{self, Answer, State};
use crate::record::{Call, Header, Order};
use anchor_lang::prelude::Pubkey;
use auction_engine::{Fill, Session};
use std::str::{FromStr, SplitAsciiWhitespace};

pub fn answer(line: &str) -> String {
    let mut words = Words { rest: line.split_ascii_whitespace(), outside: false };
    let mut state = header(&mut words);
    figures(&mut words, &mut state.session);
    let mut exclusions = orders(&mut words, &mut state.session);
    fills(&mut words, &mut state.session);
    let call = call(&mut words);
    if engine::is_over_a_limit(&state) {
        return "9||".to_string();
    }
    // A kind that no record has is an argument outside its values.
    let Some(call) = call.filter(|call| !words.outside && !engine::is_outside(call)) else {
        return "4||".to_string();
    };
    match engine::run(&mut state, &call) {
        Answer::Done(lines) => {
            engine::note_screens(&lines, &mut exclusions);
            format!("0|{}|{}", lines.join(";"), words_of(&state.session, &exclusions))
        }
        Answer::Refused(number) => format!("{number}||{}", words_of(&state.session, &exclusions)),
        Answer::Trapped => "PANIC||".to_string(),
    }
}

struct Words<'a> {
    rest: SplitAsciiWhitespace<'a>,
    /// Whether a number outside its values was read: refusal 4 of any call. The source's types cannot hold such a number.
    outside: bool,
}

impl<'a> Words<'a> {
    fn word(&mut self) -> &'a str {
        self.rest.next().expect("another word")
    }
    fn number<T: FromStr>(&mut self) -> T {
        let word = self.word();
        word.parse().unwrap_or_else(|_| panic!("a number, not {word}"))
    }
    /// A number up to a highest one, which is taken in its stead where it is above.
    fn at_most(&mut self, highest: u8) -> u8 {
        let number = self.number::<u8>();
        self.outside |= number > highest;
        number.min(highest)
    }
    fn flag(&mut self) -> bool {
        self.at_most(1) == 1
    }
    fn hex<const N: usize>(&mut self) -> [u8; N] {
        let word = self.word();
        assert!(word.len() == 2 * N, "{N} bytes in hex, not {word}");
        std::array::from_fn(|i| u8::from_str_radix(&word[2 * i..2 * i + 2], 16).expect("hex"))
    }
}

fn header(w: &mut Words) -> State {
    engine::open(&Header {
        reveal_end: w.number(),
        rofr_window: w.number(),
        settle_deadline: w.number(),
        max_cash: w.number(),
        min_reveals: w.number(),
        forced: w.flag(),
        rofr_authority: w.hex(),
        mark: w.flag(),
        reserve: w.number(),
        reference: w.number(),
        policy: w.at_most(3),
        band_bps: w.number(),
        decimals: None,
    })
}

fn figures(w: &mut Words, s: &mut Session) {
    s.phase = engine::phase_of(w.at_most(7));
    s.clear_price = w.number();
    s.cleared_volume = w.number();
    s.reserve_price = w.number();
    s.reference_mark = w.number();
    s.rofr_qty = w.number();
    s.fills_settled = w.number();
    s.skipped_fills = w.number();
}

/// The exclusion kinds are handed back.
fn orders(w: &mut Words, s: &mut Session) -> Vec<u8> {
    let mut exclusions = Vec::new();
    for _ in 0..w.number::<usize>() {
        let mut order = engine::order(&Order {
            owner: w.hex(),
            side: w.at_most(1),
            escrowed: w.number(),
            revealed: w.flag(),
            limit: w.number(),
            qty: w.number(),
        });
        (order.alloc, order.alloc_left) = (w.number(), w.number());
        (order.screened, order.eligible) = (w.number::<u8>() == 1, w.number::<u8>() == 1);
        exclusions.push(exclusion(w, &order));
        s.orders.push(order);
        s.investor_ids.push(w.hex());
    }
    // The source's list may be shorter than the orders: zeros at its end and no entry are the same to it.
    while s.investor_ids.last() == Some(&[0; 16]) {
        s.investor_ids.pop();
    }
    exclusions
}

/// 1 to 8 of an excluded order, 0 of any other. Another number is a field outside its values.
fn exclusion(w: &mut Words, order: &auction_engine::Order) -> u8 {
    let kind = w.at_most(8);
    w.outside |= (kind != 0) != (order.screened && !order.eligible);
    kind
}

fn fills(w: &mut Words, s: &mut Session) {
    for _ in 0..w.number::<usize>() {
        s.fills.push(Fill {
            buyer: Pubkey(w.hex()),
            seller: Pubkey(w.hex()),
            qty: w.number(),
            rofr: w.number::<u8>() == 1,
            settled: w.number::<u8>() == 1,
        });
    }
}

/// The call, unless no record has its kind.
fn call(w: &mut Words) -> Option<Call> {
    Some(match w.word() {
        "SC" => screen(w),
        "CL" => Call::Clear { now: w.number() },
        "AL" => Call::Allocate { now: w.number(), max_fills: w.number() },
        "RX" => Call::Exercise { now: w.number(), issuer: w.hex(), fill: w.number(), qty: w.number() },
        "RC" => Call::Close { now: w.number(), caller: w.hex() },
        "ST" => Call::Settle { fill: w.number() },
        "SK" => Call::Skip { now: w.number(), fill: w.number(), reason: w.number() },
        "FN" => Call::Finish { now: w.number() },
        "EX" => Call::Expire { now: w.number() },
        "--" => return None,
        other => panic!("no call {other}"),
    })
}

fn screen(w: &mut Words) -> Call {
    let (now, order, side, verdict) = (w.number(), w.number(), w.number(), w.number());
    let (has_id, id) = (w.flag(), w.hex());
    w.outside |= !has_id && id != [0; 16];
    Call::Screen { now, order, side, verdict, id: has_id.then_some(id) }
}

fn words_of(s: &Session, exclusions: &[u8]) -> String {
    let (settled, skipped) = (s.fills_settled, s.skipped_fills);
    let mut text = format!("{} {} {} {}", s.phase as u8, s.clear_price, s.cleared_volume, s.reserve_price);
    text += &format!(" {} {} {settled} {skipped} {}", s.reference_mark, s.rofr_qty, s.orders.len());
    for (i, o) in s.orders.iter().enumerate() {
        let (revealed, screened, eligible) = (u8::from(o.revealed), u8::from(o.screened), u8::from(o.eligible));
        text += &format!(" {} {} {} {revealed} {} {}", hex(&o.owner.0), o.side as u8, o.escrowed, o.limit, o.qty);
        text += &format!(" {} {} {screened} {eligible} {}", o.alloc, o.alloc_left, exclusions[i]);
        text += &format!(" {}", hex(s.investor_ids.get(i).unwrap_or(&[0; 16])));
    }
    text += &format!(" {}", s.fills.len());
    for f in &s.fills {
        text += &format!(" {} {} {}", hex(&f.buyer.0), hex(&f.seller.0), f.qty);
        text += &format!(" {} {}", u8::from(f.rofr), u8::from(f.settled));
    }
    text
}

fn hex(bytes: &[u8]) -> String {
    bytes.iter().map(|b| format!("{b:02x}")).collect()
}
