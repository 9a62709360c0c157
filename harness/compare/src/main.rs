//! Session files through the published source and through the C entry, every byte compared.
//!
//!     compare [--seed S] [--files N]     N generated inputs, and the fixed ones; fails if one is answered differently
//!     compare --broken [--seed S]        the same inputs against sides with a fault each; fails if a fault is not found
//!     compare --fuzz N [--seed S]        the C entry alone on N mutated inputs; fails if an answer is not allowed
mod args;
mod broken;
mod counts;
mod fuzz;
mod inputs;
mod judge;
mod output;
mod shrink;

use args::{Args, Mode};
use judge::Judge;
use std::path::Path;
use std::process::ExitCode;
use std::{env, fs};

fn main() -> ExitCode {
    let Some(Args { seed, mode }) = Args::read(env::args().skip(1)) else {
        eprintln!("usage: compare [--seed S] [--files N | --broken | --fuzz N]");
        return ExitCode::from(2);
    };
    let well = match mode {
        Mode::Compare { files } => compare(seed, files) == 0,
        Mode::Broken => broken::every_fault_is_found(seed),
        Mode::Fuzz { inputs } => fuzz::fuzz(&host::clear_session_file, seed, inputs) == 0,
    };
    ExitCode::from(u8::from(!well))
}

/// How many inputs were answered differently.
fn compare(seed: u64, files: u64) -> u64 {
    let mut judge = Judge::new(&host::clear_session_file);
    inputs::fixed(|file| judge.input(file));
    let fixed = (judge.inputs, judge.different);
    for file in inputs::Generated::new(seed).take(files as usize) {
        judge.input(&file);
    }
    judge.counts.show();
    if let Some(file) = judge.shortest.take() {
        show(&shrink::shrink(&file, |shorter| judge.differs(shorter).is_some()), &mut judge);
    }
    println!("{} fixed inputs, {} different", fixed.0, fixed.1);
    println!("{files} files, {} different", judge.different - fixed.1);
    judge.different
}

/// Shows an input and both answers, and keeps it.
fn show(file: &[u8], judge: &mut Judge) {
    let kept = Path::new(env!("CARGO_MANIFEST_DIR")).join("../target/different.session");
    println!("the smallest input with another answer ({} bytes, kept in {}):", file.len(), kept.display());
    for record in shrink::records(file) {
        let (mark, body) = record.split_at(record.len().min(2));
        let hex: String = body.iter().map(|b| format!("{b:02x}")).collect();
        println!("  {} {hex}", mark.escape_ascii());
    }
    let listing = oracle::listing(file);
    let room = judge.differs(file).expect("another answer");
    let (answer, output) = judge.answer(file, room);
    println!("the source's listing, {} bytes:\n{listing}", listing.len());
    println!("the C entry's answer, with an output of {room} bytes that were all '?': {answer}\n{output}");
    fs::write(&kept, file).unwrap_or_else(|e| println!("{}: {e}", kept.display()));
}
