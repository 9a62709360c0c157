//! Why each order of a file's session got its lot (document 02, ticket 5): price, lots and turns are what the source's own `compute_clear`
//! and pro-rata give. The refusals, which line comes first, and the words are the document's.
use crate::engine::{self, State};
use crate::reader::{self, MAX_FILE};
use auction_engine::{reach, Order, Phase, Side};
use credit_math::allocate_pro_rata;

/// The line of each order; or the refusal that any question on the file gets.
pub fn causes(file: &[u8]) -> Result<Vec<String>, u8> {
    if file.len() > MAX_FILE {
        return Err(26);
    }
    let (state, lines) = reader::run_through(file, true)?;
    let state = state.ok_or(1)?;
    if state.session.phase != Phase::Allocating {
        return Err(10);
    }
    let mut exclusions = vec![0; state.session.orders.len()];
    engine::note_screens(&lines, &mut exclusions);
    let clearing = Clearing::of(&state);
    Ok((0..exclusions.len()).map(|i| clearing.line(i, &state.session.orders[i], exclusions[i])).collect())
}

/// What a session clears at.
struct Clearing {
    price: u64,
    lots: Vec<u64>,
    /// The turn of each order that has a unit of the residue, 0 of the others.
    turns: Vec<usize>,
}

impl Clearing {
    /// A session that cleared clears at the same again, whatever fills were made since.
    fn of(state: &State) -> Clearing {
        let outcome = reach::compute_clear(&state.session, &state.feed, 0).expect("no refusal");
        let (price, volume, lots) = outcome.expect("a price");
        let mut turns = vec![0; lots.len()];
        for side in [Side::Buy, Side::Sell] {
            note_turns(&sharers(&state.session.orders, side, price), volume, &lots, &mut turns);
        }
        Clearing { price, lots, turns }
    }

    /// The first line that applies.
    fn line(&self, i: usize, o: &Order, exclusion: u8) -> String {
        let (price, lot) = (self.price, self.lots[i]);
        let words = match self.turns[i] {
            _ if !o.revealed => format!("unrevealed {i}"),
            _ if !o.is_live() => format!("excluded {i} {exclusion}"),
            _ if !is_in_price(o, price) => format!("priced {i} {} {price}", o.limit),
            0 => format!("share {i} {lot}"),
            turn => format!("residue {i} {lot} {turn}"),
        };
        words + "\n"
    }
}

fn is_in_price(o: &Order, price: u64) -> bool {
    match o.side {
        Side::Buy => o.limit >= price,
        Side::Sell => o.limit <= price,
    }
}

/// The orders of a side that share the volume, in book order, as pro-rata takes them.
fn sharers(orders: &[Order], side: Side, price: u64) -> Vec<(u64, u128)> {
    let shares = |o: &Order| o.is_live() && o.side == side && is_in_price(o, price);
    let numbered = orders.iter().enumerate().filter(|(_, o)| shares(o));
    numbered.map(|(i, o)| (i as u64, o.qty.into())).collect()
}

/// An order's unit is what its lot has beyond its share. Those with one must be the first in the source's order of handing out.
fn note_turns(sharers: &[(u64, u128)], volume: u64, lots: &[u64], turns: &mut [usize]) {
    let sum: u128 = sharers.iter().map(|&(_, qty)| qty).sum();
    let mut due = true;
    for (place, (i, qty)) in in_turn(sharers.to_vec()).into_iter().enumerate() {
        let unit = u128::from(lots[i as usize]) - u128::from(volume) * qty / sum;
        assert!(unit <= u128::from(due), "order {i} has {unit} units at place {place} of {sharers:?}");
        due = unit == 1;
        turns[i as usize] = if due { place + 1 } else { 0 };
    }
}

/// The source's order of handing out: of one unit over several quantities no share is above 0, so the first of them gets it.
fn in_turn(mut sharers: Vec<(u64, u128)>) -> Vec<(u64, u128)> {
    let mut all = Vec::new();
    while !sharers.is_empty() {
        let lots = allocate_pro_rata(1, &sharers).expect("quantities above 0");
        let first = lots.iter().position(|&(_, lot)| lot == 1).expect("the unit");
        all.push(sharers.remove(first));
    }
    all
}
