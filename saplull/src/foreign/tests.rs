//! What the library answers to what the types of this package keep away from it, and to a wrong size.

use super::*;

/// n 6, f 1, k 2, balances 10 and 3
const PAGE: [u8; 11] = [6, 1, 2, 10, 0, 0, 0, 3, 0, 0, 0];

fn page(length: usize) -> Vec<u8> {
    let mut page = PAGE.to_vec();
    page.resize(length, 0);
    page
}

fn open(words: &mut [u32; BOOK_WORDS], page: &[u8]) -> u8 {
    // Safe: the words are as many as stated, and the length is that of the page.
    unsafe { ledger_open(words, page.as_ptr(), page.len()) }
}

fn opened() -> [u32; BOOK_WORDS] {
    let mut words = [0; BOOK_WORDS];
    assert_eq!(open(&mut words, &page(PAGE_SIZE)), 0);
    words
}

/// The reply to a message on an opened book, which has to be as it was where it is refused.
fn called(kind: u8, seat: u8, body: &[u8]) -> [u32; REPLY_WORDS] {
    let before = opened();
    let (mut words, mut reply) = (before, [u32::MAX; REPLY_WORDS]);
    // Safe: the words of book and reply are as many as stated, and the length is that of the body.
    unsafe { ledger_call(&mut words, kind, seat, body.as_ptr(), body.len(), &mut reply) };
    assert_eq!(words == before, reply[0] != u32::from(b'A'), "kind {kind}, seat {seat}");
    reply
}

fn refused(code: u32) -> [u32; REPLY_WORDS] {
    [u32::from(b'R'), code, 0, 0, 0]
}

/// The slip (0, 1, 4, 1)
const BODY: [u8; 10] = [0, 1, 0, 0, 0, 4, 0, 0, 0, 1];

#[test]
fn a_slip_and_a_question_are_messages() {
    assert_eq!(called(2, 0, &BODY), [u32::from(b'A'), 0, 0, 0, 0]);
    assert_eq!(called(5, 0, &[1]), [u32::from(b'B'), 3, 0, 0, 0]);
}

#[test]
fn a_kind_that_is_no_message_gets_14() {
    for kind in (0..=0).chain(6..=255) {
        assert_eq!(called(kind, 0, &BODY), refused(14), "kind {kind}");
    }
}

#[test]
fn a_seat_where_the_kind_has_none_gets_14_before_15() {
    for kind in [1, 2, 4, 5] {
        for body in [&BODY[..], &BODY[..1], &[]] {
            assert_eq!(called(kind, 1, body), refused(14), "kind {kind}, {} bytes", body.len());
        }
    }
}

#[test]
fn a_body_of_the_wrong_length_gets_15() {
    let long = [BODY, BODY].concat();
    for kind in 1..=5 {
        let due = if kind == 5 { 1 } else { 10 };
        for length in (0..=20).filter(|length| *length != due) {
            assert_eq!(
                called(kind, 0, &long[..length]),
                refused(15),
                "kind {kind}, {length} bytes"
            );
        }
    }
}

#[test]
fn a_page_of_the_wrong_length_gets_15_and_leaves_each_word() {
    for length in (0..200).filter(|length| *length != PAGE_SIZE) {
        let mut words = [7; BOOK_WORDS];
        assert_eq!(open(&mut words, &page(length)), 15, "{length} bytes");
        assert_eq!(words, [7; BOOK_WORDS], "{length} bytes");
    }
}

fn load(words: &mut [u32; BOOK_WORDS], saved: &[u8]) -> u8 {
    // Safe: the words are as many as stated, and the length is that of the bytes.
    unsafe { ledger_load(words, saved.as_ptr(), saved.len()) }
}

#[test]
fn a_load_writes_all_words_or_none() {
    let words = opened();
    let mut saved = [0; SAVED_SIZE];
    // Safe: the words and the bytes are as many as stated.
    unsafe { ledger_save(&words, &mut saved) };
    let mut loaded = [7; BOOK_WORDS];
    for (code, place) in [(101, 0), (102, 4), (104, 8), (104, SAVED_SIZE - 1)] {
        let mut damaged = saved;
        damaged[place] ^= 2;
        assert_eq!(load(&mut loaded, &damaged), code, "byte {place}");
        assert_eq!(loaded, [7; BOOK_WORDS], "byte {place}");
    }
    assert_eq!(load(&mut loaded, &saved[1..]), 101);
    assert_eq!(load(&mut loaded, &saved[..SAVED_SIZE - 1]), 103);
    assert_eq!(loaded, [7; BOOK_WORDS]);
    assert_eq!(load(&mut loaded, &saved), 0);
    assert_eq!(loaded, words);
}

/// A sound bundle of this page and one ack of the slip `BODY`, from this seat and with this value.
fn acked(page: &[u8], seat: u8, value: u8) -> Vec<u8> {
    let mut body = BODY;
    body[5] = value;
    // Safe: the lengths are those of the bytes.
    let sums = [page, &body].map(|bytes| unsafe { bundle_sum(bytes.as_ptr(), bytes.len()) }.to_le_bytes());
    let contents = [&[2, 0, 0, 0, 18, 0], &sums[0][..], &[3, seat, 149, 0], &sums[1]];
    [&contents.concat(), page, &body].concat()
}

/// What is replied in words that held something else. They are all written, whatever the answer is.
fn joined(first: &[u8], second: &[u8], ruled: &[u8; TRANSFER_SIZE]) -> [u32; EVIDENCE_WORDS] {
    let mut reply = [u32::MAX; EVIDENCE_WORDS];
    let (one, other) = (first.as_ptr(), second.as_ptr());
    // Safe: the lengths are those of the bundles, and slip and reply are as long as stated.
    unsafe { bundle_evidence(one, first.len(), other, second.len(), ruled, &mut reply) };
    reply
}

/// A refusal by this code of this bundle, at this entry.
fn refused_join(code: u32, bundle: u32, entry: u32) -> [u32; EVIDENCE_WORDS] {
    [code, bundle, entry, 0, 0, 0, 0, 0, 0, 0, 0]
}

#[test]
fn evidence_is_told_in_eleven_words() {
    let page = page(PAGE_SIZE);
    let mut other_page = page.clone();
    other_page[PAGE_SIZE - 1] = 1;
    let (four, five, with_other_page) = (acked(&page, 3, 4), acked(&page, 3, 5), acked(&other_page, 3, 5));
    assert_eq!(
        joined(&four, &five, &[0; TRANSFER_SIZE]),
        [0, 1, 3, 1, 1, 1, 149, 0, 1, 4, 1]
    );
    assert_eq!(joined(&four, &five, &BODY), [0, 1, 3, 1, 1, 2, 149, 0, 1, 5, 1]);
    assert_eq!(joined(&four, &acked(&page, 2, 5), &BODY), [0; EVIDENCE_WORDS]);
    assert_eq!(joined(&four, &four, &BODY), [0; EVIDENCE_WORDS]);
    assert_eq!(joined(&[], &[], &BODY), refused_join(13, 1, 0));
    assert_eq!(joined(&four, &five[..158], &BODY), refused_join(15, 2, 0));
    assert_eq!(joined(&four, &with_other_page, &BODY), refused_join(21, 0, 0));
    let mut damaged = five;
    damaged[158] ^= 1;
    assert_eq!(joined(&damaged, &[], &BODY), refused_join(16, 1, 1));
    assert_eq!(joined(&four, &damaged, &BODY), refused_join(16, 2, 1));
}

#[test]
fn the_header_states_the_sizes() {
    let path = concat!(env!("CARGO_MANIFEST_DIR"), "/../include/saplull.h");
    let header = std::fs::read_to_string(path).expect(path);
    let sizes = [
        ("BOOK_WORDS", BOOK_WORDS),
        ("HELD_WORDS", HELD_WORDS),
        ("REPLY_WORDS", REPLY_WORDS),
        ("EVIDENCE_WORDS", EVIDENCE_WORDS),
        ("SAVED_SIZE", SAVED_SIZE),
        ("PAGE_SIZE", PAGE_SIZE),
        ("TRANSFER_SIZE", TRANSFER_SIZE),
        ("RECORD_SIZE", crate::message::RECORD_SIZE),
        ("LIST_SIZE", LIST_SIZE),
        ("TEXT_SIZE", TEXT_SIZE),
        ("LONGEST_BUNDLE", LONGEST_BUNDLE),
    ];
    for (name, size) in sizes {
        let line = format!("#define SAPLULL_{name} {size} ");
        assert!(header.contains(&line), "{path} lacks: {line}");
    }
}

#[test]
#[should_panic(expected = "words of a book: 1252, which the package saplull does not know")]
fn a_library_with_other_words_is_told() {
    check_size("words of a book", 1252, BOOK_WORDS);
}
