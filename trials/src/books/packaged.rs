//! The Rust package over the same library, beside a book that is held: each message through its types, each reply as it
//! shows it, the waiting list, and the bytes that it keeps.

use reference::book::{Message, OpeningPage, Slip};
use saplull::{Account, Book, Page, Seat, Transfer};

pub struct Packaged {
    book: Book,
}

impl Packaged {
    pub fn open(page: &OpeningPage) -> Result<Packaged, String> {
        let page = Page {
            seats: page.n,
            faults: page.f,
            accounts: page.k,
            balances: page.balances,
        };
        let book = Book::open(&page).map_err(|refusal| format!("the package refuses the page: {refusal}"))?;
        Ok(Packaged { book })
    }

    /// One message: the reply has to be shown as the second program shows its own.
    pub fn meet(&mut self, message: &Message, due: &str) -> Result<(), String> {
        same("reply", &self.book.call(&handed(message)).to_string(), &due.to_string())
    }

    /// The waiting list has to be this, and the book's bytes these; then it goes on with what they are loaded as.
    pub fn restart(&mut self, waiting: &[u8], saved: &[u8]) -> Result<(), String> {
        let listed: Vec<u8> = self.book.waiting().iter().map(|account| account.0).collect();
        same("waiting list", &listed[..], waiting)?;
        let bytes = self.book.to_bytes();
        if bytes != saved {
            return Err(String::from("the package saves other bytes than the library"));
        }
        self.book = Book::from_bytes(&bytes).map_err(|error| format!("the package loads nothing: {error}"))?;
        Ok(())
    }
}

fn same<T: PartialEq + std::fmt::Debug + ?Sized>(what: &str, is: &T, due: &T) -> Result<(), String> {
    if is == due {
        return Ok(());
    }
    Err(format!("the package's {what} is {is:?} and not {due:?}"))
}

/// The message in the package's types.
fn handed(message: &Message) -> saplull::Message {
    match *message {
        Message::Request(slip) => saplull::Message::Request(transfer(slip)),
        Message::Slip(slip) => saplull::Message::Slip(transfer(slip)),
        Message::Ack { seat, slip } => saplull::Message::Ack {
            seat: Seat(seat),
            transfer: transfer(slip),
        },
        Message::Ruling(slip) => saplull::Message::Ruling(transfer(slip)),
        Message::Question { account } => saplull::Message::Question(Account(account)),
    }
}

fn transfer(slip: Slip) -> Transfer {
    Transfer {
        account: Account(slip.account),
        number: slip.number,
        value: slip.value,
        recipient: Account(slip.recipient),
    }
}
