//! A seat's book.

use crate::foreign::{check_sizes, ledger_call, ledger_open, ledger_switch, ledger_waiting, other_version};
use crate::foreign::{BOOK_WORDS, HELD_WORDS, LIST_SIZE, REPLY_WORDS};
use crate::{Account, Message, Page, Refusal, Reply};
use std::fmt;

/// A seat's book. Only the library writes its words, and it is not cloned: of two books of one seat, each could ack
/// another slip with the same number. It may go from thread to thread, and several may read it at the same time.
pub struct Book {
    words: Box<[u32; BOOK_WORDS]>,
}

impl Book {
    /// A new book of this page.
    pub fn open(page: &Page) -> Result<Book, Refusal> {
        let page = page.to_bytes();
        // Safe: the words are as many as stated, and the length is that of the page.
        let (book, code) = Book::made(|words| unsafe { ledger_open(words, page.as_ptr(), page.len()) });
        match code {
            0 => Ok(book),
            code => Err(Refusal::answered(u32::from(code))),
        }
    }

    /// The book that a host goes on with which holds one from before request 5 of document 02.
    pub fn taken_over(held: &[u32; HELD_WORDS]) -> Book {
        // Safe: the words of both are as many as stated, and none are the other's.
        Book::made(|words| unsafe { ledger_switch(held, words) }).0
    }

    /// Plays a message on the book. Where it is refused, the book is as it was.
    pub fn call(&mut self, message: &Message) -> Reply {
        let record = message.record();
        self.call_bytes(record[0], record[1], &record[2..message.length()])
    }

    /// Plays a message on the book as it came: its kind, its seat (an ack's sender, else 0) and its body, whose
    /// signature the host has checked. What is no message is refused with 14, and a body of another length than its
    /// kind's with 15.
    pub fn call_bytes(&mut self, kind: u8, seat: u8, body: &[u8]) -> Reply {
        let mut reply = [0; REPLY_WORDS];
        // Safe: the words of book and reply are as many as stated, and the length is that of the body.
        unsafe { ledger_call(&mut *self.words, kind, seat, body.as_ptr(), body.len(), &mut reply) };
        Reply::answered(reply)
    }

    /// The accounts with a slip that is accepted and waits, lowest first.
    pub fn waiting(&self) -> Vec<Account> {
        let mut list = [0; LIST_SIZE];
        // Safe: the words are as many as stated, and the length is that of the list.
        let count = unsafe { ledger_waiting(&*self.words, list.as_mut_ptr(), list.len()) };
        listed(list, count).unwrap_or_else(|refusal| panic!("a list of {LIST_SIZE} bytes is refused: {refusal}"))
    }

    /// A book whose words are what is written into them, and what is returned by what writes them.
    pub(crate) fn made<T>(write: impl FnOnce(&mut [u32; BOOK_WORDS]) -> T) -> (Book, T) {
        check_sizes();
        let mut words = Box::new([0; BOOK_WORDS]);
        let returned = write(&mut words);
        (Book { words }, returned)
    }

    pub(crate) fn words(&self) -> &[u32; BOOK_WORDS] {
        &self.words
    }
}

/// The accounts at the front of a list, from the number that is returned for it.
pub(crate) fn listed(list: [u8; LIST_SIZE], returned: u32) -> Result<Vec<Account>, Refusal> {
    match (returned / 256, list.get(..(returned % 256) as usize)) {
        (0, Some(front)) => Ok(front.iter().copied().map(Account).collect()),
        (0, None) => other_version("the length of a waiting list", returned),
        (code, _) => Err(Refusal::answered(code)),
    }
}

impl fmt::Debug for Book {
    fn fmt(&self, f: &mut fmt::Formatter<'_>) -> fmt::Result {
        f.debug_struct("Book").finish_non_exhaustive()
    }
}

#[cfg(test)]
mod tests {
    use super::{listed, LIST_SIZE};
    use crate::{Account, Refusal};

    #[test]
    fn a_list_is_as_long_as_is_returned() {
        let list = [7; LIST_SIZE];
        assert_eq!(listed(list, 0), Ok(vec![]));
        assert_eq!(listed(list, 32), Ok(vec![Account(7); 32]));
        assert_eq!(listed(list, 17 * 256), Err(Refusal::ShortBuffer));
    }

    #[test]
    #[should_panic(expected = "the length of a waiting list: 33, which the package saplull does not know")]
    fn a_longer_list_is_told() {
        let _ = listed([7; LIST_SIZE], 33);
    }
}
