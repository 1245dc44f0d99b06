//! The host of one seat, in Rust; hosts/seat.c is the same in C. One process at a time runs it on a file:
//! `seat open FILE` opens a book, plays seven messages and keeps it in FILE; `seat go-on FILE` plays five more on it.
//! For each message: call, save durably, then send. A seat that sends first and loses its power forgets that it has
//! acked a slip, and may ack another one with the same number. A reply that is saved and not sent is no worse than one
//! that the network loses.

use saplull::{Account, Book, Message, Page, Seat, Transfer};
use std::fmt::Display;
use std::fs::{self, File};
use std::io::{self, Write};
use std::path::{Path, PathBuf};

const START_AGAIN: &str = "not sent; see to the disk and start again";
const BRING_BACK: &str = "bring back the last book that this seat saved, never an earlier or a new one";

/// What comes in. A host gets these from its network, and checks their signatures first.
#[rustfmt::skip]
fn messages() -> [Message; 12] {
    let slip = |number, value| Transfer { account: Account(0), number, value, recipient: Account(1) };
    let ack = |seat, transfer| Message::Ack { seat: Seat(seat), transfer };
    let (first, next, question) = (slip(1, 4), slip(2, 6), Message::Question(Account(1)));
    [
        Message::Slip(first), ack(0, first), ack(1, first), ack(2, first), ack(3, first), ack(4, first), question,
        question, Message::Slip(first), Message::Slip(next), Message::Slip(next), ack(0, next),
    ]
}

/// Ends the host. It tells the file, what is wrong with it, what to do.
fn complain(file: &Path, what: impl Display, to_do: &str) -> ! {
    eprintln!("{}: {what}; {to_do}", file.display());
    std::process::exit(1)
}

/// The new bytes are durable before they take the old ones' place: whenever the power fails, a whole book is there.
fn save(book: &Book, file: &Path) {
    let mut fresh = file.as_os_str().to_owned();
    fresh.push(".new");
    let fresh = Path::new(&fresh);
    let replaced = File::create(fresh).and_then(|mut out| {
        out.write_all(&book.to_bytes())?;
        out.sync_all()?;
        fs::rename(fresh, file)
    });
    replaced.unwrap_or_else(|error| complain(fresh, error, START_AGAIN));
    let here = Path::new(".").join(file); // the new name is durable once its folder is
    let synced = File::open(here.parent().unwrap_or(&here)).and_then(|folder| folder.sync_all());
    synced.unwrap_or_else(|error| complain(file, error, START_AGAIN));
}

/// A seat opens its book once: another opening would forget all that the seat has acked.
fn open(file: &Path) -> Book {
    match file.try_exists() {
        Ok(false) => {}
        Ok(true) => complain(file, "it is there already", "if it is this seat's book, go on with it"),
        Err(error) => complain(file, error, "take a file in a folder that is there"),
    }
    let book = Book::open(&Page::new(6, 1, &[10, 3]));
    book.unwrap_or_else(|refusal| complain(file, refusal, "write another opening page"))
}

fn load(file: &Path) -> Book {
    let saved = fs::read(file).unwrap_or_else(|error| complain(file, error, BRING_BACK));
    Book::from_bytes(&saved).unwrap_or_else(|error| {
        let what = format!("refused with code {}: {error}", error.code());
        complain(file, what, BRING_BACK)
    })
}

fn main() {
    let arguments: Vec<PathBuf> = std::env::args_os().skip(1).map(PathBuf::from).collect();
    let (mut book, file, lines) = match &arguments[..] {
        [word, file] if word == Path::new("open") => (open(file), file, 1..=7),
        [word, file] if word == Path::new("go-on") => (load(file), file, 8..=12),
        _ => complain(Path::new("usage"), "seat open FILE", "seat go-on FILE"),
    };
    for line in lines {
        let reply = book.call(&messages()[line - 1]);
        save(&book, file);
        let sent = writeln!(io::stdout(), "{line} {reply}");
        let out = Path::new("standard output");
        sent.unwrap_or_else(|error| complain(out, error, "saved and not sent; go on"));
    }
}
