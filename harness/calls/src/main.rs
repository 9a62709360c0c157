//! Single calls on arbitrary sessions, also on those that no file leads to, through the published source and through ours.
//!
//!     calls PROGRAM [--seed S] [--cases N]       PROGRAM is the built crate `single_calls`: a block a case in, a line a case out
//!     calls --write BLOCKS ANSWERS [--seed S] [--cases N]     writes the blocks and the source's answers instead
mod args;
mod block;
mod case;
mod exclusions;
mod generate;
mod numbers;
mod words;

use args::{Args, Mode};
use case::Case;
use oracle::random::Random;
use std::collections::BTreeMap;
use std::io::Write;
use std::process::{Command, ExitCode, Stdio};
use std::{env, fs, thread};

fn main() -> ExitCode {
    let Some(args) = Args::read(env::args().skip(1)) else {
        eprintln!("usage: calls (PROGRAM | --write BLOCKS ANSWERS) [--seed S] [--cases N]");
        return ExitCode::from(2);
    };
    let mut r = Random(args.seed);
    let cases: Vec<Case> = (0..args.cases).map(|_| generate::case(&mut r)).collect();
    let source: Vec<String> = cases.iter().map(|c| oracle::single_call::answer(&words::words(c))).collect();
    let blocks: Vec<u8> = cases.iter().flat_map(block::block).collect();
    let well = match args.mode {
        Mode::Compare { program } => same(&cases, &source, &answers(&program, blocks)),
        Mode::Write { blocks: to, answers } => {
            fs::write(to, blocks).expect("the blocks");
            fs::write(answers, source.join("\n") + "\n").expect("the answers");
            true
        }
    };
    ExitCode::from(u8::from(!well))
}

/// What a program answers to all of its input, one line a case.
fn answers(program: &str, input: Vec<u8>) -> Vec<String> {
    let mut child =
        Command::new(program).stdin(Stdio::piped()).stdout(Stdio::piped()).spawn().unwrap_or_else(|e| panic!("{program}: {e}"));
    let mut pipe = child.stdin.take().expect("its input");
    let writer = thread::spawn(move || pipe.write_all(&input).expect("the program reads"));
    let out = child.wait_with_output().expect("the program ends");
    writer.join().expect("all was written");
    String::from_utf8(out.stdout).expect("text").lines().map(str::to_string).collect()
}

/// Shows how often each refusal of each call was seen and the first differences, and says whether there are none.
fn same(cases: &[Case], source: &[String], ours: &[String]) -> bool {
    let mut seen = BTreeMap::new();
    let mut different = 0;
    for (i, case) in cases.iter().enumerate() {
        let refusal = source[i].split('|').next().expect("a refusal");
        *seen.entry(format!("{} {refusal:>2}", case.call.mark())).or_insert(0u64) += 1;
        if let Some(fault) = case.orders.iter().find_map(exclusions::fault) {
            *seen.entry(format!("{refusal:>2} with {fault}")).or_insert(0) += 1;
        }
        if ours.get(i) != Some(&source[i]) {
            different += 1;
            if different <= 3 {
                println!("{}\n  source: {}\n  ours:   {:?}", words::words(case), source[i], ours.get(i));
            }
        }
    }
    seen.iter().for_each(|(what, n)| println!("{n:8} {what}"));
    println!("{} calls, {different} different", cases.len());
    different == 0 && ours.len() == cases.len()
}
