//! A book as bytes, to be kept between the runs of a host.

use crate::book::Book;
use crate::coded::coded;
use crate::foreign::{ledger_load, ledger_save, SAVED_SIZE};

coded! {
    /// Why bytes are not loaded as a book. They are tried in the order of their codes.
    LoadError, "the code of a load that is refused":
    WrongMark = 101, "it does not begin with the mark of a saved book";
    UnknownFormat = 102, "the number of its format is unknown";
    WrongLength = 103, "it is shorter or longer than its format";
    WrongSum = 104, "its sum is wrong: bytes of it have changed";
}

impl Book {
    /// The book as bytes, always as many: its mark, the number of its format, its words, and a sum. A host keeps them
    /// durably before it sends the reply of the call before.
    pub fn to_bytes(&self) -> Vec<u8> {
        let mut saved = Box::new([0; SAVED_SIZE]);
        // Safe: the words and the bytes are as many as stated.
        unsafe { ledger_save(self.words(), &mut *saved) };
        saved.to_vec()
    }

    /// The book that was saved so. A host goes on with the last bytes that it kept, and never with earlier ones: that
    /// book would not know what it has acked since.
    pub fn from_bytes(saved: &[u8]) -> Result<Book, LoadError> {
        // Safe: the words are as many as stated, and the length is that of the bytes.
        let (book, code) = Book::made(|words| unsafe { ledger_load(words, saved.as_ptr(), saved.len()) });
        match code {
            0 => Ok(book),
            code => Err(LoadError::answered(u32::from(code))),
        }
    }
}

#[cfg(test)]
mod tests {
    use super::LoadError;

    #[test]
    #[should_panic(expected = "the code of a load that is refused: 105, which the package saplull does not know")]
    fn a_newer_code_is_told() {
        LoadError::answered(105);
    }
}
