//! The words after the program's name.

pub enum Mode {
    Compare { files: u64 },
    Broken,
    Fuzz { inputs: u64 },
}

pub struct Args {
    pub seed: u64,
    pub mode: Mode,
}

impl Args {
    /// The last of several words for one thing counts. Nothing, where a word is unknown or a number is missing.
    pub fn read(words: impl Iterator<Item = String>) -> Option<Args> {
        let mut args = Args { seed: 1, mode: Mode::Compare { files: 200_000 } };
        let mut words = words;
        while let Some(word) = words.next() {
            let mut number = || words.next()?.parse().ok();
            match word.as_str() {
                "--seed" => args.seed = number()?,
                "--files" => args.mode = Mode::Compare { files: number()? },
                "--fuzz" => args.mode = Mode::Fuzz { inputs: number()? },
                "--broken" => args.mode = Mode::Broken,
                _ => return None,
            }
        }
        Some(args)
    }
}
