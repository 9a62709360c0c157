//! The C entry on mutated inputs: that it returns, with an answer that document 01 allows, and writes nowhere but in its output.
use crate::inputs::mutated::{mutated, pool};
use crate::judge::Entry;
use crate::output::Output;
use oracle::random::Random;

/// How many of `count` inputs were answered badly. A trap ends the program.
pub fn fuzz(entry: Entry, seed: u64, count: u64) -> u64 {
    let pool = pool(seed);
    let mut output = Output::new();
    let (mut listed, mut refused, mut bad) = (0u64, 0u64, 0u64);
    for n in 0..count {
        let r = &mut Random::item(!seed, n);
        // No room behind it, so that a tool that watches memory sees a read past its end.
        let file = mutated(r, &pool).into_boxed_slice();
        let enough = 200 + 3 * file.len();
        let room = r.pick(&[enough, enough, enough, enough, 4096, 256, 9, 0]);
        let answer = entry(&file, output.lend(room));
        match answer {
            -27 | -26 => refused += 1,
            _ => listed += 1,
        }
        if !is_allowed(answer, &output, room) {
            bad += 1;
            println!("input {n} of seed {seed}: {answer} with room for {room}");
        }
        if n % 100_000 == 99_999 {
            eprintln!("{} inputs", n + 1);
        }
    }
    println!("{listed:10}  listed");
    println!("{refused:10}  refused with 26 or 27");
    println!("{count} inputs, {bad} bad answers, 0 traps");
    bad
}

fn is_allowed(answer: i64, output: &Output, room: usize) -> bool {
    match usize::try_from(answer) {
        Ok(length) => length <= room && output.is_untouched_from(length),
        Err(_) => matches!(answer, -26 | -27) && output.is_zeroed(),
    }
}
