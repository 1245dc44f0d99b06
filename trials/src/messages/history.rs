//! What a book's replies tell of each number: the slip that was accepted, and whether anything was put forward.

use reference::book::{Message, Slip};
use std::collections::{BTreeMap, BTreeSet};

/// An account and one of its numbers.
type Key = (u8, u32);

#[derive(Default)]
pub struct History {
    accepted: BTreeMap<Key, Slip>,
    put_forward: BTreeSet<Key>,
}

impl History {
    /// Takes a message and its reply, as printed or its letter alone: K tells that the slip is accepted, P that its
    /// number is put forward.
    pub fn take(&mut self, message: &Message, reply: &str) {
        match (message, reply.as_bytes().first()) {
            (Message::Ack { slip, .. } | Message::Ruling(slip), Some(b'K')) => {
                self.accepted.insert(key(slip), *slip);
            }
            (Message::Ack { slip, .. }, Some(b'P')) => {
                self.put_forward.insert(key(slip));
            }
            _ => {}
        }
    }

    /// The accepted slip with this one's account and number.
    pub fn accepted(&self, slip: &Slip) -> Option<Slip> {
        self.accepted.get(&key(slip)).copied()
    }

    /// The latest accepted slip of this account.
    pub fn latest(&self, account: u8) -> Option<Slip> {
        let of_account = self.accepted.range((account, 0)..=(account, u32::MAX));
        of_account.last().map(|(_, slip)| *slip)
    }

    /// Whether anything was put forward for this slip's account and number.
    pub fn has_put_forward(&self, slip: &Slip) -> bool {
        self.put_forward.contains(&key(slip))
    }
}

fn key(slip: &Slip) -> Key {
    (slip.account, slip.number)
}
