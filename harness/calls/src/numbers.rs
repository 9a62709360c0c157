//! Numbers of the kinds that matter: small ones that tie, the edges of 64 bits, any.
use oracle::random::Random;

pub fn qty(r: &mut Random) -> u64 {
    match r.below(16) {
        0 => r.pick(&[0, 1, u64::MAX, 1 << 63, (1 << 63) - 1, u64::MAX / 2]),
        1 => r.word() >> r.below(64),
        _ => 1 + r.below(9),
    }
}

pub fn price(r: &mut Random) -> u64 {
    match r.below(16) {
        0 => r.pick(&[0, 1, u64::MAX, 1 << 63]),
        1 => r.word() >> r.below(64),
        _ => 8 + r.below(6),
    }
}

pub fn time(r: &mut Random) -> i64 {
    match r.below(24) {
        0 => r.pick(&[i64::MIN, i64::MAX, -1, 0]),
        1 => r.word() as i64,
        _ => r.below(200) as i64,
    }
}

/// How many of something that has a limit: mostly up to it, at times one above.
pub fn count(r: &mut Random, limit: usize) -> usize {
    if r.one_in(40) {
        return limit + 1;
    }
    match r.below(3) {
        0 => r.below(limit as u64 + 1) as usize,
        1 => r.below(5) as usize,
        _ => limit,
    }
}
