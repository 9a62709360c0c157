//! Prints the listing of a session file: `cargo run -p host --example listing ../examples/case-l.session`
use std::error::Error;
use std::io::{stdout, Write};
use std::{env, fs};

fn main() -> Result<(), Box<dyn Error>> {
    let mut words = env::args().skip(1);
    let (Some(path), None) = (words.next(), words.next()) else {
        return Err("usage: listing FILE".into());
    };
    let file = fs::read(path)?;
    stdout().write_all(&host::listing(&file)?)?;
    Ok(())
}
