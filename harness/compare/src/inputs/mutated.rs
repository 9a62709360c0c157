//! Mutated files: what a fuzzer feeds.
use oracle::generate::{course, damage, long};
use oracle::random::Random;

/// Files to start from.
pub fn pool(seed: u64) -> Vec<Vec<u8>> {
    let file = |n| course(&mut Random::item(seed, n));
    let long_file = |n| long(&mut Random::item(seed, n));
    (0..2000).map(file).chain((0..8).map(long_file)).collect()
}

/// A file of the pool with some numbers in it changed, damaged, or joined with another; or bytes of no meaning.
pub fn mutated(r: &mut Random, pool: &[Vec<u8>]) -> Vec<u8> {
    let mut file = any_of(r, pool);
    match r.below(16) {
        0 => return noise(r),
        1..=3 => join(r, &mut file, pool),
        4..=8 => damage(r, &mut file),
        _ => (0..1 + r.below(4)).for_each(|_| overwrite(r, &mut file)),
    }
    file
}

/// The long files are few in a thousand: they take a thousand times as long.
fn any_of(r: &mut Random, pool: &[Vec<u8>]) -> Vec<u8> {
    let many = if r.one_in(500) { pool.len() } else { pool.len() - 8 };
    pool[r.below(many as u64) as usize].clone()
}

fn noise(r: &mut Random) -> Vec<u8> {
    let length = r.pick(&[0, 1, 2, 3, 94, 95, 400, 65_535, 65_536, 65_537]) as usize;
    (0..length).map(|_| r.word() as u8).collect()
}

/// The start of one file and the end of another.
fn join(r: &mut Random, file: &mut Vec<u8>, pool: &[Vec<u8>]) {
    let other = any_of(r, pool);
    let from = r.below(other.len() as u64 + 1) as usize;
    file.truncate(r.below(file.len() as u64 + 1) as usize);
    file.extend(&other[from..]);
}

/// One, four or eight bytes at a place become an edge of that width.
fn overwrite(r: &mut Random, file: &mut [u8]) {
    let width = r.pick(&[1, 4, 8]);
    if file.len() < width {
        return;
    }
    let at = r.below((file.len() - width + 1) as u64) as usize;
    let edge = r.pick(&[0, 1, 2, u64::MAX, 1 << 63, (1 << 63) - 1, u64::MAX - 1, 7]);
    file[at..at + width].copy_from_slice(&edge.to_le_bytes()[..width]);
}
