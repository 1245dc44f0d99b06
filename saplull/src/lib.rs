//! A seat's book, for hosts in Rust. The five calls:
//!
//! ```
//! use saplull::{Account, Book, Message, Page, Reply, Transfer};
//!
//! let mut book = Book::open(&Page::new(6, 1, &[10, 3]))?;
//! let slip = Transfer { account: Account(0), number: 1, value: 4, recipient: Account(1) };
//! assert_eq!(book.call(&Message::Slip(slip)), Reply::Acknowledge);
//! assert_eq!(book.waiting(), []);
//! let bytes = book.to_bytes(); // to be kept durably before the reply is sent
//! let mut again = Book::from_bytes(&bytes)?;
//! assert_eq!(again.call(&Message::Slip(slip)).to_string(), "R 12"); // it remembers that it has acked
//! # Ok::<(), Box<dyn std::error::Error>>(())
//! ```
//!
//! A seat calls, then saves durably, and only then sends the reply. A seat that sends first and loses its power forgets
//! that it has acked a slip, and may ack another one with the same number.
//!
//! The functions are those of `include/saplull.h`. This package and the static library have to be built from one
//! source. Where they are not, a call panics and says so if books have another size or if an answer is not known; a
//! reply or a text of another length is not noticed. Where they are, no call panics, whatever the numbers and bytes
//! are.

#![warn(missing_docs)]

mod book;
pub mod bundle;
mod coded;
pub mod evidence;
mod foreign;
mod message;
mod page;
pub mod quorum;
mod refusal;
mod reply;
mod saved;

pub use book::Book;
pub use foreign::HELD_WORDS;
pub use message::{Account, Message, Seat, Transfer};
pub use page::Page;
pub use refusal::Refusal;
pub use reply::Reply;
pub use saved::LoadError;

/// The version of this package, which `include/saplull.h` states too.
pub const VERSION: &str = env!("CARGO_PKG_VERSION");
