//! The messages that come to a book.

use crate::foreign::{other_version, TRANSFER_SIZE};

/// A seat's number, from 0. A type of its own, so that it never goes in where an account's number is wanted.
#[derive(Clone, Copy, Debug, PartialEq, Eq, PartialOrd, Ord, Hash)]
pub struct Seat(pub u8);

/// An account's number, from 0.
#[derive(Clone, Copy, Debug, PartialEq, Eq, PartialOrd, Ord, Hash)]
pub struct Account(pub u8);

/// What a slip says.
#[derive(Clone, Copy, Debug, PartialEq, Eq, Hash)]
pub struct Transfer {
    /// who pays
    pub account: Account,
    /// the payer's number of it, from 1
    pub number: u32,
    /// how many portions
    pub value: u32,
    /// who is paid
    pub recipient: Account,
}

/// A message, whose signature the host has checked.
#[non_exhaustive]
#[derive(Clone, Copy, Debug, PartialEq, Eq, Hash)]
pub enum Message {
    /// a home's new slip
    Request(Transfer),
    /// a circulated slip
    Slip(Transfer),
    /// the ack of a seat, also of this one
    Ack {
        /// who acks
        seat: Seat,
        /// what is acked
        transfer: Transfer,
    },
    /// the council's slip
    Ruling(Transfer),
    /// an account, whose balance is asked
    Question(Account),
}

/// How many bytes a message has as a record: kind, seat, ten bytes of a body.
pub const RECORD_SIZE: usize = 12;

impl Message {
    /// The message as a record for the writer of bundles: kind, seat, and the body, behind a question's zeros.
    pub fn record(&self) -> [u8; RECORD_SIZE] {
        match *self {
            Message::Request(transfer) => transfer.record(1, 0),
            Message::Slip(transfer) => transfer.record(2, 0),
            Message::Ack { seat, transfer } => transfer.record(3, seat.0),
            Message::Ruling(transfer) => transfer.record(4, 0),
            Message::Question(account) => [5, 0, account.0, 0, 0, 0, 0, 0, 0, 0, 0, 0],
        }
    }

    /// How many bytes of the record are its kind, its seat and its body.
    pub(crate) fn length(&self) -> usize {
        match self {
            Message::Question(_) => 3,
            _ => RECORD_SIZE,
        }
    }
}

impl Transfer {
    /// The slip's bytes, as a bundle's body has them.
    pub fn to_bytes(&self) -> [u8; TRANSFER_SIZE] {
        let mut bytes = [0; TRANSFER_SIZE];
        bytes[0] = self.account.0;
        bytes[1..5].copy_from_slice(&self.number.to_le_bytes());
        bytes[5..9].copy_from_slice(&self.value.to_le_bytes());
        bytes[9] = self.recipient.0;
        bytes
    }

    /// The slip that the library writes in these words.
    pub(crate) fn answered([account, number, value, recipient]: [u32; 4]) -> Transfer {
        let told = |word| Account(u8::try_from(word).unwrap_or_else(|_| other_version("the account of a reply", word)));
        Transfer {
            account: told(account),
            number,
            value,
            recipient: told(recipient),
        }
    }

    fn record(&self, kind: u8, seat: u8) -> [u8; RECORD_SIZE] {
        let mut record = [0; RECORD_SIZE];
        record[..2].copy_from_slice(&[kind, seat]);
        record[2..].copy_from_slice(&self.to_bytes());
        record
    }
}
