//! The words after the program's name.
use oracle::options;

pub enum Mode {
    /// With the answers of this program.
    Compare { program: String },
    /// The cases and the source's answers to files.
    Write { blocks: String, answers: String },
}

pub struct Args {
    pub mode: Mode,
    pub seed: u64,
    pub cases: u64,
}

impl Args {
    /// Nothing, where a word is missing or unknown.
    pub fn read(mut words: impl Iterator<Item = String>) -> Option<Args> {
        let mode = match words.next()? {
            word if word == "--write" => Mode::Write { blocks: words.next()?, answers: words.next()? },
            word if word.starts_with('-') => return None,
            program => Mode::Compare { program },
        };
        let [seed, cases] = options::numbers(words, [("--seed", 1), ("--cases", 100_000)])?;
        Some(Args { mode, seed, cases })
    }
}
