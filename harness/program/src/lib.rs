//! Runs the built program `clearing`.
use std::io::Read;
use std::path::{Path, PathBuf};
use std::process::{Child, Command, Stdio};
use std::thread;
use std::time::{Duration, Instant};

/// Far more than any run takes.
const LONGEST: Duration = Duration::from_secs(30);

/// What it wrote.
#[derive(Debug, PartialEq, Eq)]
pub struct Said {
    pub out: String,
    pub err: String,
}

/// A path from the root of the repository.
pub fn from_root(path: &str) -> PathBuf {
    Path::new(env!("CARGO_MANIFEST_DIR")).join("../..").join(path)
}

/// Where `rt run` in crates/clearing puts it.
pub fn path() -> PathBuf {
    let built = from_root("crates/clearing/out/clearing");
    assert!(built.exists(), "no {}: `rt run` in crates/clearing makes it", built.display());
    built
}

/// Starts a command with its standard error kept, and its standard output too unless that goes elsewhere.
pub fn start(command: &mut Command, input: Stdio, output: Option<Stdio>) -> Child {
    command.stdin(input).stdout(output.unwrap_or_else(Stdio::piped)).stderr(Stdio::piped()).spawn().expect("the program starts")
}

/// Waits for its end, and ends it where it takes too long.
pub fn finish(mut child: Child) -> Said {
    let out = child.stdout.take().map(|pipe| thread::spawn(|| text(pipe)));
    let err = child.stderr.take().map(|pipe| thread::spawn(|| text(pipe)));
    let started = Instant::now();
    while child.try_wait().expect("its state").is_none() {
        if started.elapsed() > LONGEST {
            child.kill().expect("it can be ended");
            panic!("the program takes too long");
        }
        thread::sleep(Duration::from_millis(2));
    }
    let said = |pipe: Option<thread::JoinHandle<String>>| pipe.map_or_else(String::new, |t| t.join().expect("text"));
    Said { out: said(out), err: said(err) }
}

fn text(mut pipe: impl Read) -> String {
    let mut text = String::new();
    pipe.read_to_string(&mut text).expect("text");
    text
}
