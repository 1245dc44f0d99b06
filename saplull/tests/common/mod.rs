//! What the tests share.

#![allow(dead_code)]

use saplull::{Account, Book, Message, Page, Seat, Transfer};

pub fn transfer(account: u8, number: u32, value: u32, recipient: u8) -> Transfer {
    Transfer {
        account: Account(account),
        number,
        value,
        recipient: Account(recipient),
    }
}

pub fn ack(seat: u8, transfer: Transfer) -> Message {
    Message::Ack {
        seat: Seat(seat),
        transfer,
    }
}

pub fn opened(seats: u8, faults: u8, balances: &[u32]) -> Book {
    Book::open(&Page::new(seats, faults, balances)).expect("a page that opens")
}

/// The replies to these messages, as `daybook` shows them, one after the other with a comma between them. Where one is
/// refused, the book has to be as it was.
pub fn replies(book: &mut Book, messages: &[Message]) -> String {
    let shown = messages.iter().map(|message| {
        let before = book.to_bytes();
        let reply = book.call(message).to_string();
        let refused = reply.starts_with('R');
        assert!(
            !refused || book.to_bytes() == before,
            "{message:?} is refused and the book is changed"
        );
        reply
    });
    shown.collect::<Vec<_>>().join(", ")
}

/// The messages of document 01's whole-output case.
pub fn whole_output() -> Vec<Message> {
    let slip = transfer(0, 1, 4, 1);
    let mut messages = vec![Message::Slip(slip)];
    messages.extend((0..5).map(|seat| ack(seat, slip)));
    messages.push(Message::Question(Account(1)));
    messages
}

/// A file of the repository.
pub fn file(path: &str) -> Vec<u8> {
    let path = format!("{}/../{path}", env!("CARGO_MANIFEST_DIR"));
    std::fs::read(&path).unwrap_or_else(|error| panic!("{path}: {error}"))
}
