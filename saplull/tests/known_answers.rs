//! The known answers of documents 01 and 02, from `examples/known_answers.txt`, through this package.

mod common;

use common::replies;
use reference::book::{self, OpeningPage, Slip};
use reference::known::{AcksNeeded, Asked, Example, Known, Opening, Play, Step, Sum};
use saplull::{bundle, quorum, Account, Book, Message, Page, Seat, Transfer};
use std::path::Path;

fn known() -> Known {
    Known::read(Path::new("../examples")).unwrap_or_else(|what| panic!("{what}"))
}

/// The page in the package's types.
fn page(page: &OpeningPage) -> Page {
    Page {
        seats: page.n,
        faults: page.f,
        accounts: page.k,
        balances: page.balances,
    }
}

/// The message in the package's types.
fn message(message: &book::Message) -> Message {
    match *message {
        book::Message::Request(slip) => Message::Request(transfer(slip)),
        book::Message::Slip(slip) => Message::Slip(transfer(slip)),
        book::Message::Ack { seat, slip } => Message::Ack {
            seat: Seat(seat),
            transfer: transfer(slip),
        },
        book::Message::Ruling(slip) => Message::Ruling(transfer(slip)),
        book::Message::Question { account } => Message::Question(Account(account)),
    }
}

fn transfer(slip: Slip) -> Transfer {
    common::transfer(slip.account, slip.number, slip.value, slip.recipient)
}

#[test]
fn acks_needed() {
    for AcksNeeded { place, n, f, count } in known().acks_needed {
        assert_eq!(quorum::acks_needed(n, f), u16::from(count), "{place}");
        assert!(quorum::is_enough(n, f, count), "{place}");
        assert!(!quorum::is_enough(n, f, count - 1), "{place}");
    }
}

#[test]
fn sums() {
    for Sum { place, bytes, sum } in known().sums {
        assert_eq!(bundle::sum(&bytes), sum, "{place}");
    }
}

#[test]
fn openings_that_are_refused() {
    for Opening {
        place,
        page: given,
        code,
    } in known().openings
    {
        let refusal = Book::open(&page(&given)).expect_err(&place);
        assert_eq!(refusal.code(), code, "{place}");
    }
}

/// Each reply is shown as `daybook` shows it; and `replies` holds that a message that is refused leaves the book as it
/// was.
#[test]
fn plays() {
    for Play {
        place,
        page: given,
        steps,
        ..
    } in known().plays
    {
        let mut book = Book::open(&page(&given)).unwrap_or_else(|refusal| panic!("{place}: {refusal}"));
        for Step { place, asked } in steps {
            match asked {
                Asked::Call(called, reply) => {
                    assert_eq!(replies(&mut book, &[message(&called)]), reply.to_string(), "{place}");
                }
                Asked::Waiting(accounts) => {
                    let accounts: Vec<Account> = accounts.into_iter().map(Account).collect();
                    assert_eq!(book.waiting(), accounts, "{place}");
                }
            }
        }
    }
}

/// An example's bundle and its text.
#[test]
fn texts() {
    for play in known().plays {
        let Example {
            bundle: file,
            text,
            messages,
        } = match play.example {
            Some(example) => example,
            None => continue,
        };
        let name = file.display();
        let messages: Vec<Message> = messages.iter().map(message).collect();
        let bytes = bundle::write(&page(&play.page), &messages).expect("few messages");
        assert_eq!(
            std::fs::read(&file).expect("a bundle that can be read"),
            bytes,
            "{name}"
        );
        assert_eq!(bundle::text(&bytes), text, "{name}");
    }
}
