//! The counter-check: sides with a fault each, all of which the comparison must find.
mod entries;

use crate::inputs::{fixed, Generated};
use crate::judge::{Entry, Judge};
use entries::{answer, ENTRIES};

/// Generated inputs within which a fault must show.
const PATIENCE: usize = 5_000;

/// Says of each fault after how many inputs it shows. Fails if one does not.
pub fn every_fault_is_found(seed: u64) -> bool {
    let mut missed = 0;
    for (number, fault) in switch::FAULTS.iter().enumerate() {
        switch::set(number);
        missed += u32::from(!is_found(fault.name, seed, &|file, output| answer(&broken_oracle::listing(file), file, output)));
    }
    for (name, entry) in ENTRIES {
        missed += u32::from(!is_found(name, seed, entry));
    }
    println!("{} faults, {missed} missed", switch::FAULTS.len() + ENTRIES.len());
    missed == 0
}

fn is_found(name: &str, seed: u64, entry: Entry) -> bool {
    let mut judge = Judge::new(entry);
    for file in Generated::new(seed).take(PATIENCE) {
        judge.input(&file);
        if judge.different > 0 {
            println!("{:>8}  {name}", judge.inputs);
            return true;
        }
    }
    fixed(|file| judge.input(file));
    let after = if judge.different > 0 { "fixed" } else { "MISSED" };
    println!("{after:>8}  {name}");
    judge.different > 0
}
