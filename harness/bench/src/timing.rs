//! How long each of two sides takes.
use std::hint::black_box;
use std::time::{Duration, Instant};

const ROUNDS: usize = 30;
const ROUND: Duration = Duration::from_millis(15);

/// The two sides, in the words of the tables.
pub const SIDES: [&str; 2] = ["C entry", "source"];

/// Nanoseconds for all the files of each set, on each side.
pub fn nanoseconds<const N: usize>(sets: [&[Vec<u8>]; N]) -> [[f64; 2]; N] {
    let mut output = vec![0; 1 << 20];
    in_turns(sets, |side, file| match side {
        0 => ours(file, &mut output),
        _ => source(file),
    })
}

/// Nanoseconds for all the items of each set, on each of two sides: the best of some rounds. Sets and sides take turns, so that all meet
/// the same disturbance.
pub fn in_turns<T, const N: usize>(sets: [&[T]; N], mut run: impl FnMut(usize, &T)) -> [[f64; 2]; N] {
    let mut best = [[f64::INFINITY; 2]; N];
    for _ in 0..ROUNDS {
        for (items, best) in sets.iter().zip(&mut best) {
            for (side, best) in best.iter_mut().enumerate() {
                *best = best.min(round(|| items.iter().for_each(|item| run(side, item))));
            }
        }
    }
    best
}

fn ours(file: &[u8], output: &mut [u8]) {
    let length = host::listing_into(black_box(file), output).expect("room enough");
    black_box(&output[..length]);
}

fn source(file: &[u8]) {
    black_box(oracle::quick_listing(black_box(file)));
}

/// The mean time of as many runs as a round has time for.
fn round(mut run: impl FnMut()) -> f64 {
    let start = Instant::now();
    let mut runs = 0;
    while runs == 0 || start.elapsed() < ROUND {
        run();
        runs += 1;
    }
    start.elapsed().as_nanos() as f64 / f64::from(runs)
}
