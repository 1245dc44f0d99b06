//! A book saved and loaded, what is refused as a saved book, and a book taken over.

mod common;

use common::{ack, file, opened, replies, transfer, whole_output};
use saplull::{bundle, Account, Book, LoadError, Message, HELD_WORDS};
use std::collections::BTreeSet;
use std::thread;

const SIZE: usize = 5532;

fn lived() -> Book {
    let mut book = opened(6, 1, &[10, 3]);
    replies(&mut book, &whole_output());
    book
}

#[test]
fn the_form() {
    let saved = lived().to_bytes();
    assert_eq!(saved.len(), SIZE);
    assert_eq!(saved[..8], *b"SAPL\x01\0\0\0");
    assert_eq!(saved[SIZE - 4..], bundle::sum(&saved[..SIZE - 4]).to_le_bytes());
}

#[test]
fn a_loaded_book_is_the_saved_one() {
    let (mut kept, saved) = (lived(), lived().to_bytes());
    let mut loaded = Book::from_bytes(&saved).expect("a book that was saved");
    assert_eq!(loaded.to_bytes(), saved);
    let next = transfer(0, 2, 6, 1);
    let messages = [
        Message::Slip(transfer(0, 1, 4, 1)),
        Message::Slip(next),
        Message::Slip(next),
        ack(3, next),
    ];
    assert_eq!(replies(&mut loaded, &messages), "R 6, A, R 12, N");
    assert_eq!(replies(&mut kept, &messages), "R 6, A, R 12, N");
    assert_eq!(loaded.to_bytes(), kept.to_bytes());
}

fn refused(saved: &[u8]) -> LoadError {
    Book::from_bytes(saved).expect_err("bytes that are no saved book")
}

/// What a change makes of a saved book, with a sum that is right again where it is wanted.
fn changed(change: impl Fn(&mut Vec<u8>), summed: bool) -> LoadError {
    let mut saved = lived().to_bytes();
    change(&mut saved);
    if summed {
        let end = saved.len() - 4;
        let sum = bundle::sum(&saved[..end]).to_le_bytes();
        saved[end..].copy_from_slice(&sum);
    }
    refused(&saved)
}

#[test]
fn each_fault_alone_has_its_own_answer() {
    for place in 0..4 {
        assert_eq!(
            changed(|saved| saved[place] ^= 1, true),
            LoadError::WrongMark,
            "byte {place}"
        );
    }
    for place in 4..8 {
        assert_eq!(
            changed(|saved| saved[place] ^= 3, true),
            LoadError::UnknownFormat,
            "byte {place}"
        );
    }
    assert_eq!(changed(|saved| saved.truncate(SIZE - 1), true), LoadError::WrongLength);
    assert_eq!(changed(|saved| saved.push(0), true), LoadError::WrongLength);
    for place in 8..SIZE {
        assert_eq!(
            changed(|saved| saved[place] ^= 128, false),
            LoadError::WrongSum,
            "byte {place}"
        );
    }
}

#[test]
fn of_two_faults_the_first_is_told() {
    let mark = |saved: &mut Vec<u8>| saved[0] = b's';
    let format = |saved: &mut Vec<u8>| saved[4] = 2;
    let length = |saved: &mut Vec<u8>| saved.truncate(SIZE - 1);
    let body = |saved: &mut Vec<u8>| saved[100] ^= 1;
    assert_eq!(
        changed(|saved| (mark(saved), format(saved)).0, true),
        LoadError::WrongMark
    );
    assert_eq!(
        changed(|saved| (mark(saved), length(saved)).0, false),
        LoadError::WrongMark
    );
    assert_eq!(
        changed(|saved| (mark(saved), body(saved)).0, false),
        LoadError::WrongMark
    );
    assert_eq!(
        changed(|saved| (format(saved), length(saved)).0, false),
        LoadError::UnknownFormat
    );
    assert_eq!(
        changed(|saved| (format(saved), body(saved)).0, false),
        LoadError::UnknownFormat
    );
    assert_eq!(
        changed(|saved| (length(saved), body(saved)).0, false),
        LoadError::WrongLength
    );
}

#[test]
fn short_pieces_are_met_at_what_they_lack() {
    assert_eq!(refused(&[]), LoadError::WrongMark);
    assert_eq!(refused(b"SAP"), LoadError::WrongMark);
    assert_eq!(refused(b"SAPL"), LoadError::UnknownFormat);
    assert_eq!(refused(b"SAPL\x01"), LoadError::WrongLength);
}

/// The held book of `examples/`: account 0 waits behind a put-forward, account 1 with nothing put forward, account 4
/// is acked by this seat.
#[test]
fn a_held_book_is_taken_over() {
    let text = String::from_utf8(file("examples/held_before_request_5.words")).expect("a text");
    let lines = text.lines().filter(|line| !line.starts_with('#'));
    let words = lines
        .flat_map(|line| line.split(' '))
        .map(|word| word.parse().expect("a number"));
    let held: [u32; HELD_WORDS] = words.collect::<Vec<u32>>().try_into().expect("1,252 words");
    let mut book = Book::taken_over(&held);
    assert_eq!(book.waiting(), [Account(0), Account(1)]);
    let slip = Message::Slip(transfer(4, 1, 2, 0));
    let (behind, late) = (ack(0, transfer(0, 1, 5, 1)), ack(5, transfer(1, 1, 9, 0)));
    assert_eq!(
        replies(&mut book, &[slip, behind, late, late]),
        "R 12, R 8, P 1 1 6 4, R 8"
    );
}

/// A saved book with other bytes and a right sum: of 4,096 bytes, so many are others.
fn with_other_bytes(many: u32, random: &mut u32) -> Vec<u8> {
    let mut saved = lived().to_bytes();
    for byte in &mut saved[8..SIZE - 4] {
        *random = random.wrapping_mul(1_664_525).wrapping_add(1_013_904_223);
        if *random >> 20 < many {
            *byte = (*random >> 12) as u8;
        }
    }
    let sum = bundle::sum(&saved[..SIZE - 4]);
    saved[SIZE - 4..].copy_from_slice(&sum.to_le_bytes());
    saved
}

/// Bytes that no book saved may have a right sum. Whatever their words are, every message gets a reply.
#[test]
fn any_words_are_a_book() {
    let slips = [transfer(0, 2, 4, 1), transfer(1, 1, 3, 0), transfer(31, 1, 1, 0)];
    let mut messages = vec![Message::Question(Account(0)), Message::Ruling(slips[1])];
    messages.extend(slips.map(Message::Slip));
    messages.extend((0..16).flat_map(|seat| slips.map(|slip| ack(seat, slip))));
    let (mut random, mut letters) = (1, BTreeSet::new());
    for round in 0..300 {
        let saved = with_other_bytes(1 << (round % 13), &mut random);
        let mut book = Book::from_bytes(&saved).expect("a right sum");
        assert_eq!(book.to_bytes(), saved);
        assert!(book.waiting().len() <= 32);
        let shown = replies(&mut book, &messages);
        letters.extend(shown.chars().filter(char::is_ascii_uppercase));
    }
    assert_eq!(letters.into_iter().collect::<String>(), "ABKNPR");
}

#[test]
fn several_threads_read_a_book_and_one_takes_it() {
    let mut book = lived();
    let saved = book.to_bytes();
    thread::scope(|scope| {
        for _ in 0..4 {
            scope.spawn(|| assert_eq!((book.to_bytes(), book.waiting()), (saved.clone(), vec![])));
        }
    });
    let taken = thread::spawn(move || replies(&mut book, &[Message::Slip(transfer(0, 2, 6, 1))]));
    assert_eq!(taken.join().expect("a reply"), "A");
}
