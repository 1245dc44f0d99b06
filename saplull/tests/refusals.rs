//! Each refusal by its code; and `replies` holds that a message that is refused leaves the book as it was.

mod common;

use common::{ack, file, opened, replies, transfer, whole_output};
use saplull::{bundle, Account, Book, LoadError, Message, Page, Refusal, Reply, Transfer};
use std::error::Error;

#[test]
fn codes() {
    let codes: Vec<u8> = Refusal::ALL.iter().map(|refusal| refusal.code()).collect();
    assert_eq!(codes, (1..=21).collect::<Vec<u8>>());
    let codes: Vec<u8> = LoadError::ALL.iter().map(|error| error.code()).collect();
    assert_eq!(codes, [101, 102, 103, 104]);
}

#[test]
fn sentences() {
    let all = Refusal::ALL.iter().map(|refusal| refusal.sentence());
    let mut all: Vec<_> = all.chain(LoadError::ALL.iter().map(|error| error.sentence())).collect();
    all.sort_unstable();
    all.dedup();
    assert_eq!(all.len(), 25, "each has a sentence of its own");
    let shown: Box<dyn Error> = Refusal::AlreadyAcked.into();
    assert_eq!(shown.to_string(), "slip for a number that this seat has acked");
    let shown: Box<dyn Error> = LoadError::WrongMark.into();
    assert_eq!(shown.to_string(), "it does not begin with the mark of a saved book");
}

/// Page::new with more balances than a page has, or with none.
#[test]
fn balances_that_no_page_has() {
    for accounts in [0, 33, 256 + 2] {
        let page = Page::new(6, 1, &vec![0; accounts]);
        assert_eq!(Book::open(&page).unwrap_err(), Refusal::BadAccounts, "k {accounts}");
    }
}

/// A book with balances 10, 3 and 0, in which this seat has acked (0, 1, 4, 1), seat 0 too, and number 1 of account 2
/// waits.
fn lived() -> Book {
    let mut book = opened(6, 1, &[10, 3, 0]);
    let slip = transfer(0, 1, 4, 1);
    let before = [Message::Slip(slip), ack(0, slip), Message::Ruling(transfer(2, 1, 1, 0))];
    assert_eq!(replies(&mut book, &before), "A, N, K 0");
    book
}

#[test]
fn messages() {
    let slip = transfer(0, 1, 4, 1);
    let request = |slip: Transfer| Message::Request(slip);
    let due = [
        (ack(6, slip), Refusal::UnknownSeat),
        (request(transfer(0, 0, 4, 1)), Refusal::OutOfRange),
        (Message::Question(Account(3)), Refusal::OutOfRange),
        (request(transfer(0, 2, 4, 1)), Refusal::FutureNumber),
        (request(transfer(2, 1, 1, 0)), Refusal::AlreadyAccepted),
        (ack(0, slip), Refusal::AckRepeated),
        (ack(0, transfer(0, 1, 5, 1)), Refusal::AckConflicting),
        (request(transfer(0, 1, 11, 1)), Refusal::InsufficientFunds),
        (Message::Slip(transfer(0, 1, 11, 1)), Refusal::AlreadyAcked),
        (request(transfer(0, 1, 4, 0)), Refusal::SelfPayment),
    ];
    let mut book = lived();
    for (message, refusal) in due {
        assert_eq!(
            replies(&mut book, &[message]),
            format!("R {}", refusal.code()),
            "{message:?}"
        );
    }
    let booked = Message::Ruling(transfer(0, 1, 4, 2));
    assert_eq!(replies(&mut book, &[booked, booked]), "K 2, R 6");
}

/// The reply to what is handed over as bytes. Where it is refused, the book has to be as it was.
fn met(book: &mut Book, kind: u8, seat: u8, body: &[u8]) -> Reply {
    let before = book.to_bytes();
    let reply = book.call_bytes(kind, seat, body);
    assert!(!matches!(reply, Reply::Refused(_)) || book.to_bytes() == before);
    reply
}

#[test]
fn bytes_that_are_no_message() {
    let mut book = lived();
    let slip = Message::Slip(transfer(0, 1, 4, 1)).record();
    let (no_message, other_length) = (Reply::Refused(Refusal::BadContents), Reply::Refused(Refusal::BadEnd));
    for kind in [0, 6, 255] {
        assert_eq!(met(&mut book, kind, 0, &slip[2..]), no_message, "kind {kind}");
    }
    for kind in [1, 2, 4] {
        assert_eq!(
            met(&mut book, kind, 1, &slip[2..]),
            no_message,
            "a seat and kind {kind}"
        );
    }
    assert_eq!(met(&mut book, 5, 1, &[0]), no_message, "a seat and a question");
    for kind in 1..=4 {
        assert_eq!(met(&mut book, kind, 0, &[]), other_length, "kind {kind}");
        assert_eq!(met(&mut book, kind, 0, &slip[2..11]), other_length, "kind {kind}");
        assert_eq!(met(&mut book, kind, 0, &slip[1..]), other_length, "kind {kind}");
    }
    assert_eq!(met(&mut book, 5, 0, &[]), other_length, "a question");
    assert_eq!(met(&mut book, 5, 0, &slip[2..]), other_length, "a question");
    assert_eq!(met(&mut book, 2, 1, &[]), no_message, "14 is tried before 15");
    assert_eq!(met(&mut book, 3, 255, &[]), other_length, "15 is tried before 4");
}

#[test]
fn bytes_of_messages() {
    let (mut book, mut other) = (opened(6, 1, &[10, 3]), opened(6, 1, &[10, 3]));
    let mut messages = whole_output();
    messages.extend([
        Message::Request(transfer(0, 2, 1, 1)),
        Message::Ruling(transfer(1, 1, 2, 0)),
    ]);
    for message in messages {
        let record = message.record();
        let length = if record[0] == 5 { 1 } else { 10 };
        let reply = book.call_bytes(record[0], record[1], &record[2..2 + length]);
        assert_eq!(reply, other.call(&message), "{message:?}");
        assert_eq!(book.to_bytes(), other.to_bytes(), "{message:?}");
    }
}

#[test]
fn bundles() {
    let of = |name: &str| bundle::check(&file(&format!("examples/{name}.bundle")));
    let fault = |code, entry| Err(bundle::BundleFault { code, entry });
    assert_eq!(of("whole_output"), Ok(8));
    assert_eq!(of("longest"), Ok(1000));
    assert_eq!(of("empty"), fault(Refusal::BadHeader, 0));
    assert_eq!(of("no_entries"), fault(Refusal::BadHeader, 0));
    for name in ["wrong_kind", "wrong_seat", "wrong_start"] {
        assert_eq!(of(name), fault(Refusal::BadContents, 1), "{name}");
    }
    assert_eq!(of("byte_missing"), fault(Refusal::BadEnd, 0));
    assert_eq!(of("one_byte_too_long"), fault(Refusal::BadEnd, 0));
    assert_eq!(of("wrong_sum"), fault(Refusal::BadSum, 1));
    assert_eq!(of("wrong_sum").unwrap_err().to_string(), "entry 1: a wrong sum");
    let shown = of("byte_missing").unwrap_err().to_string();
    assert_eq!(shown, Refusal::BadEnd.sentence());
}

#[test]
fn too_many_messages() {
    let page = Page::new(6, 1, &[10, 3]);
    let most = bundle::write(&page, &[Message::Request(transfer(0, 1, 4, 1)); 999]).expect("999 messages");
    assert_eq!((most.len(), bundle::check(&most)), (18_123, Ok(1000)));
    let more = bundle::write(&page, &[Message::Question(Account(0)); 1000]);
    assert_eq!(more, Err(Refusal::TooManyMessages));
}

#[test]
fn waiting_behind_a_bundle() {
    let page = Page::new(6, 1, &[1, 0, 0]);
    let waits = [2, 1].map(|account| Message::Ruling(transfer(account, 1, 1, 0)));
    let bytes = bundle::write(&page, &waits).expect("two messages");
    assert_eq!(bundle::waiting_behind(&bytes), Ok(vec![Account(1), Account(2)]));
    assert_eq!(bundle::waiting_behind(&bytes[1..]), Err(Refusal::BadHeader));
    let refused = file("examples/refused_opening_5_1.bundle");
    assert_eq!(
        (bundle::check(&refused), bundle::waiting_behind(&refused)),
        (Ok(1), Err(Refusal::BadGroup))
    );
}
