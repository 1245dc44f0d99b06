//! The rows of a reply that depend on what came before its message: of a P by its acks, of a late P, and of
//! self-payments.

use crate::messages::late::Retentions;
use crate::messages::self_payments;
use crate::messages::ties::Arrivals;
use reference::book::{Book, Message, OpeningPage};

/// What came so far: the second program's book, the order of the acks, and what was accepted and put forward late.
pub struct Before {
    book: Book,
    arrivals: Arrivals,
    retentions: Retentions,
}

impl Before {
    /// Nothing but the opening, unless it is refused.
    pub fn open(page: &OpeningPage) -> Option<Before> {
        let book = Book::open(page).ok()?;
        Some(Before {
            book,
            arrivals: Arrivals::default(),
            retentions: Retentions::default(),
        })
    }

    /// The next message and its reply, letter and values.
    pub fn rows(&mut self, message: &Message, reply: &[&str]) -> Vec<String> {
        let mut rows = self.arrivals.rows(message, reply);
        rows.extend(self.retentions.rows(&self.book, message, reply));
        let mut rows: Vec<String> = rows.iter().map(|row| row.to_string()).collect();
        rows.extend(self_payments::row(&self.book, message, reply));
        self.book.call(message);
        rows
    }
}
