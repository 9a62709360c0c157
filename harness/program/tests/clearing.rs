//! The program `clearing` at its edges: what it reads, what it writes, and what it says where it cannot.
use program::{finish, from_root, path, start, Said};
use std::fs::{self, File};
use std::io::Write;
use std::net::{TcpListener, TcpStream};
use std::os::fd::OwnedFd;
use std::process::{Command, Stdio};
use std::thread;

const UNREAD: &str = "clearing: standard input could not be read\n";
const UNWRITTEN: &str = "clearing: standard output could not be written\n";
const TOO_LONG: &str = "0 refused 26\nend none\n";
const MAX_FILE: usize = 65_536;

fn case_l() -> Vec<u8> {
    fs::read(from_root("examples/case-l.session")).unwrap()
}

/// A listing, and nothing on standard error.
fn shown(listing: &str) -> Said {
    Said { out: listing.to_string(), err: String::new() }
}

/// One line on standard error, and nothing on standard output.
fn complaint(line: &str) -> Said {
    Said { out: String::new(), err: line.to_string() }
}

/// What the program says to an input that comes in pieces of so many bytes.
fn in_pieces(input: &[u8], size: usize) -> Said {
    let mut child = start(&mut Command::new(path()), Stdio::piped(), None);
    let mut pipe = child.stdin.take().unwrap();
    let input = input.to_vec();
    // A program that stops reading leaves the rest unwritten.
    let writer = thread::spawn(move || input.chunks(size).try_for_each(|piece| pipe.write_all(piece)));
    let said = finish(child);
    let _ = writer.join().unwrap();
    said
}

#[test]
fn example_files() {
    let mut seen = 0;
    for entry in fs::read_dir(from_root("examples")).unwrap() {
        let path = entry.unwrap().path();
        if path.extension().is_some_and(|e| e == "session") {
            let (file, listing) = (fs::read(&path).unwrap(), fs::read_to_string(path.with_extension("listing")).unwrap());
            assert_eq!(in_pieces(&file, file.len()), shown(&listing), "{}", path.display());
            seen += 1;
        }
    }
    assert!(seen > 0);
}

/// However the input is cut into reads, its listing is the same.
#[test]
fn an_input_in_pieces() {
    for name in ["case-l", "covered", "uncovered"] {
        let file = fs::read(from_root(&format!("examples/{name}.session"))).unwrap();
        let listing = fs::read_to_string(from_root(&format!("examples/{name}.listing"))).unwrap();
        for size in [1, 7, 94] {
            assert_eq!(in_pieces(&file, size), shown(&listing), "{name} in pieces of {size}");
        }
    }
}

#[test]
fn no_input() {
    assert_eq!(in_pieces(b"", 1), shown("end none\n"));
}

/// Case L, then settles and one skip that are refused, up to the limit: the last byte is the skip's reason.
fn longest(reason: u8) -> Vec<u8> {
    let mut file = case_l();
    let skip = [b"SK".as_slice(), &[0; 12], &[reason]].concat();
    while file.len() + skip.len() < MAX_FILE {
        file.extend(b"ST\0\0\0\0");
    }
    file.extend(skip);
    assert_eq!(file.len(), MAX_FILE);
    file
}

#[test]
fn the_longest_input() {
    for (reason, number) in [(6, 10), (7, 4)] {
        let said = in_pieces(&longest(reason), 5000);
        assert!(said.out.ends_with(&format!("10848 refused 10\n10849 refused {number}\nend 5 1\n")));
        assert_eq!(said.err, "");
    }
    let longer = [longest(6), vec![0]].concat();
    assert_eq!(in_pieces(&longer, 5000), shown(TOO_LONG));
}

/// What the program says to a stream of these bytes that is then reset, as a socket is that is closed with something unread.
fn reset_after(bytes: &[u8]) -> Said {
    let listener = TcpListener::bind("127.0.0.1:0").unwrap();
    let mut far = TcpStream::connect(listener.local_addr().unwrap()).unwrap();
    let (mut near, _) = listener.accept().unwrap();
    near.write_all(b"unread").unwrap();
    far.peek(&mut [0]).unwrap();
    far.write_all(bytes).unwrap();
    let child = start(&mut Command::new(path()), OwnedFd::from(near).into(), None);
    drop(far);
    finish(child)
}

/// Records were read whole before the stream broke off; what they say is not the file's listing.
#[test]
fn a_stream_that_breaks_off() {
    let file = case_l();
    for end in [94, 154, 300, file.len()] {
        assert_eq!(reset_after(&file[..end]), complaint(UNREAD), "after {end} bytes");
    }
}

/// A shell that becomes the program, with `$0` for its path.
fn shell(script: &str) -> Command {
    let mut command = Command::new("sh");
    command.arg("-c").arg(script).arg(path());
    command
}

#[test]
fn an_input_that_cannot_be_read() {
    let folder = File::open(from_root("examples")).unwrap();
    assert_eq!(finish(start(&mut Command::new(path()), folder.into(), None)), complaint(UNREAD));
    assert_eq!(finish(start(&mut shell("exec \"$0\" <&-"), Stdio::null(), None)), complaint(UNREAD));
}

#[test]
fn an_output_that_cannot_be_written() {
    let input = || File::open(from_root("examples/case-l.session")).unwrap().into();
    let full = File::options().write(true).open("/dev/full").unwrap();
    assert_eq!(finish(start(&mut Command::new(path()), input(), Some(full.into()))), complaint(UNWRITTEN));
    assert_eq!(finish(start(&mut shell("exec \"$0\" >&-"), input(), None)), complaint(UNWRITTEN));
}

#[test]
fn any_argument_gives_the_usage() {
    for words in [vec!["examples/case-l.session"], vec!["--help"], vec![""], vec!["-", "-"]] {
        let input = File::open(from_root("examples/case-l.session")).unwrap();
        let said = finish(start(Command::new(path()).args(&words), input.into(), None));
        assert_eq!((said.out.as_str(), said.err.lines().count()), ("", 1), "{words:?}");
        assert!(said.err.starts_with("usage: clearing < FILE"), "{words:?}");
    }
}
