//! The oracle as a program.
//!
//!     oracle < FILE                   the listing
//!     oracle --states < FILE          with the source's session after each call
//!     oracle --batch IN OUT           the listing of each file of the folder IN, under the same name in OUT
//!     oracle --gen SEED N DIR         N session files
//!     oracle --calls                  one call on any session, a line each (src/single_call.rs)
//!     oracle --functions              one call of a public function, a line each (src/functions.rs)
use std::io::{stdin, stdout, BufWriter, Read, Write};
use std::process::exit;
use std::{env, fs, io, path::Path};

fn main() -> io::Result<()> {
    let args: Vec<String> = env::args().skip(1).collect();
    match args.iter().map(String::as_str).collect::<Vec<_>>()[..] {
        [] => stdout().write_all(oracle::listing(&input()?).as_bytes()),
        ["--states"] => stdout().write_all(oracle::listing_with_states(&input()?).as_bytes()),
        ["--batch", from, to] => batch(Path::new(from), Path::new(to)),
        ["--gen", seed, count, to] => match (seed.parse(), count.parse()) {
            (Ok(seed), Ok(count)) => generate(seed, count, Path::new(to)),
            _ => usage(),
        },
        ["--calls"] => answers(oracle::single_call::answer),
        ["--functions"] => answers(oracle::functions::answer),
        _ => usage(),
    }
}

fn usage() -> ! {
    eprintln!(
        "usage: oracle [--states | --calls | --functions] < INPUT\n       oracle --batch IN OUT\n       oracle --gen SEED N DIR"
    );
    exit(2)
}

fn input() -> io::Result<Vec<u8>> {
    let mut file = Vec::new();
    stdin().read_to_end(&mut file)?;
    Ok(file)
}

fn batch(from: &Path, to: &Path) -> io::Result<()> {
    fs::create_dir_all(to)?;
    for entry in fs::read_dir(from)? {
        let entry = entry?;
        if entry.file_type()?.is_file() {
            fs::write(to.join(entry.file_name()), oracle::listing(&fs::read(entry.path())?))?;
        }
    }
    Ok(())
}

fn generate(seed: u64, count: u64, to: &Path) -> io::Result<()> {
    fs::create_dir_all(to)?;
    (0..count).try_for_each(|n| fs::write(to.join(format!("{n:06}.session")), oracle::generate::file(seed, n)))
}

fn answers(answer: fn(&str) -> String) -> io::Result<()> {
    let mut out = BufWriter::new(stdout());
    stdin().lines().try_for_each(|line| writeln!(out, "{}", answer(&line?)))
}
