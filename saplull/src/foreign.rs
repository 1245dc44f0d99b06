//! The functions of the static library, as `include/saplull.h` states them, and what is refused of a library that is of
//! another version.

use std::fmt::Display;

pub const BOOK_WORDS: usize = 1380;
/// How many words a book has that is held from before request 5 of document 02.
pub const HELD_WORDS: usize = 1252;
pub const REPLY_WORDS: usize = 5;
pub const EVIDENCE_WORDS: usize = 11;
pub const SAVED_SIZE: usize = 5532;
pub const PAGE_SIZE: usize = 131;
pub const TRANSFER_SIZE: usize = 10;
pub const LIST_SIZE: usize = 32;
pub const TEXT_SIZE: usize = 36_828;
pub const LONGEST_BUNDLE: usize = 18_123;

// Each function takes all numbers and all bytes, keeps no pointer, and writes only into what is lent as *mut, within
// the length that is stated or handed over. So a call is safe where each pointer comes from a reference to so many
// words or bytes that lives through the call; two that are only read may lead to the same bytes.
extern "C" {
    pub fn ledger_words() -> u32;
    pub fn ledger_saved_size() -> u32;
    pub fn ledger_open(words: *mut [u32; BOOK_WORDS], page: *const u8, length: usize) -> u8;
    pub fn ledger_call(
        words: *mut [u32; BOOK_WORDS],
        kind: u8,
        seat: u8,
        body: *const u8,
        length: usize,
        reply: *mut [u32; REPLY_WORDS],
    );
    pub fn ledger_waiting(words: *const [u32; BOOK_WORDS], list: *mut u8, length: usize) -> u32;
    pub fn ledger_switch(held: *const [u32; HELD_WORDS], words: *mut [u32; BOOK_WORDS]);
    pub fn ledger_save(words: *const [u32; BOOK_WORDS], saved: *mut [u8; SAVED_SIZE]);
    pub fn ledger_load(words: *mut [u32; BOOK_WORDS], saved: *const u8, length: usize) -> u8;
    pub fn ledger_acks_needed(seats: u8, faults: u8) -> u16;
    pub fn ledger_is_enough(seats: u8, faults: u8, acks: u8) -> bool;
    pub fn daybook_text(bytes: *const u8, length: usize, text: *mut [u8; TEXT_SIZE]) -> usize;
    pub fn daybook_waiting(bytes: *const u8, length: usize, list: *mut u8, list_length: usize) -> u32;
    pub fn bundle_check(bytes: *const u8, length: usize) -> u32;
    pub fn bundle_sum(body: *const u8, length: usize) -> u32;
    pub fn bundle_write(
        page: *const [u8; PAGE_SIZE],
        records: *const u8,
        length: usize,
        out: *mut u8,
        out_length: usize,
    ) -> u32;
    pub fn bundle_evidence(
        first: *const u8,
        first_length: usize,
        second: *const u8,
        second_length: usize,
        ruled: *const [u8; TRANSFER_SIZE],
        reply: *mut [u32; EVIDENCE_WORDS],
    );
}

/// Panics unless the library's books have the sizes that are lent here. It comes before each call that is lent a buffer
/// without its length; of a book that is there it has been asked.
pub fn check_sizes() {
    // Safe: they are lent nothing.
    let (words, saved) = unsafe { (ledger_words(), ledger_saved_size()) };
    check_size("words of a book", words, BOOK_WORDS);
    check_size("bytes of a saved book", saved, SAVED_SIZE);
}

fn check_size(what: &str, stated: u32, known: usize) {
    if usize::try_from(stated) != Ok(known) {
        other_version(what, stated);
    }
}

/// The library answers what this package does not know.
pub fn other_version(what: &str, answer: impl Display) -> ! {
    panic!(
        "{what}: {answer}, which the package saplull does not know: it and the static library are of different \
        versions, build both from one source"
    )
}

#[cfg(test)]
mod tests;
