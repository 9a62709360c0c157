//! The number of fills from the lots alone, against the fills that the source's own cranks make of a session that it just cleared.
use oracle::engine::{self, Answer, State};
use oracle::generate;
use oracle::random::Random;
use oracle::record::Call;
use oracle::Phase;
use std::collections::BTreeMap;

/// A crank's allowance, and how many fills there are after it.
type Crank = (u8, u64);

/// How many of so many cleared sessions were cranked to another number of fills. How often each number came and the first differences
/// are shown.
pub fn compare(r: &mut Random, count: u64) -> u64 {
    let mut seen = BTreeMap::new();
    let mut different = 0;
    for _ in 0..count {
        let state = cleared(r);
        let (lots, sides): (Vec<u64>, Vec<u8>) = state.session.orders.iter().map(|o| (o.alloc, o.side as u8)).unzip();
        let ours = host::fill_count(&lots, &sides);
        let cranks = cranked(r, state);
        *seen.entry(made(&cranks)).or_insert(0u64) += 1;
        if !ours.is_ok_and(|fills| is_right(fills, &lots, &cranks)) {
            different += 1;
            if different <= 5 {
                println!("lots {lots:?}, sides {sides:?}\n  ours: {ours:?}\n  cranks, each with the fills after it: {cranks:?}");
            }
        }
    }
    seen.iter().for_each(|(fills, n)| println!("{n:8} sessions of {fills} fills"));
    different
}

/// Books are made until one clears.
fn cleared(r: &mut Random) -> State {
    std::iter::repeat_with(|| generate::cleared(r, 0)).flatten().next().expect("an endless row").1
}

/// Cranks of any allowances until the matching is complete.
fn cranked(r: &mut Random, mut state: State) -> Vec<Crank> {
    let mut cranks = Vec::new();
    while state.session.phase == Phase::Allocating {
        let max_fills = r.pick(&[0, 1, 1, 2, 3, 7, 255]);
        let answer = engine::run(&mut state, &Call::Allocate { now: 0, max_fills });
        assert!(matches!(answer, Answer::Done(_)), "a crank of a cleared session: {answer:?}");
        cranks.push((max_fills, state.session.fills.len() as u64));
    }
    cranks
}

fn made(cranks: &[Crank]) -> u64 {
    cranks.last().map_or(0, |&(_, fills)| fills)
}

/// No crank goes past the number and the last one reaches it; and it is below the number of orders with a lot.
fn is_right(number: u64, lots: &[u64], cranks: &[Crank]) -> bool {
    let with_lot = lots.iter().filter(|&&lot| lot > 0).count() as u64;
    cranks.iter().all(|&(_, fills)| fills <= number) && made(cranks) == number && number < with_lot
}
