//! The acks that a P rests on: which slips have the most of them, and in which order they came.

use reference::book::{Message, Slip};
use std::collections::BTreeMap;

/// A seat, and the slip that it acked.
pub type Ack = (u8, Slip);

/// The rows of P by how many slips have the most acks, 1, 2, 3, and 4 or more.
pub const SIZES: [&str; 4] = [
    "P: no tie",
    "P: tie of two",
    "P: tie of three",
    "P: tie of four or more",
];
/// The rows of P on a tie by when the ack came that decides, which is the lowest seat's of those for a tied slip.
pub const ORDERS: [&str; 3] = [AT_HAND, BEHIND_OTHERS, NOT_ITS_FIRST];
/// The lowest seat's ack came last of all.
const AT_HAND: &str = "P: tie, lowest seat at hand";
/// It did not, but every ack of the other tied slips had come before it.
const BEHIND_OTHERS: &str = "P: tie, lowest seat behind others";
/// Another ack of its slip had come before it.
const NOT_ITS_FIRST: &str = "P: tie, lowest seat not its first";

/// The slips with the most acks, each once, by their lowest seats.
pub fn tied(acks: &[Ack]) -> Vec<Slip> {
    let count = |slip: &Slip| acks.iter().filter(|(_, acked)| acked == slip).count();
    let most = acks.iter().map(|(_, slip)| count(slip)).max();
    let mut tied = Vec::new();
    for (_, slip) in by_seat(acks) {
        if Some(count(&slip)) == most && !tied.contains(&slip) {
            tied.push(slip);
        }
    }
    tied
}

/// The row of a P that rests on these acks, by how many slips have the most.
pub fn size(acks: &[Ack]) -> &'static str {
    SIZES[tied(acks).len().clamp(1, SIZES.len()) - 1]
}

/// The same acks, from the lowest seat on.
pub fn by_seat(acks: &[Ack]) -> Vec<Ack> {
    let mut acks = acks.to_vec();
    acks.sort_unstable_by_key(|(seat, _)| *seat);
    acks
}

/// The rows of a P that rests on these acks, which stand in the order in which they came.
fn rows(acks: &[Ack]) -> Vec<&'static str> {
    let tied = tied(acks);
    let mut rows = vec![size(acks)];
    if tied.len() < 2 {
        return rows;
    }
    let of_first = (0..acks.len()).filter(|place| acks[*place].1 == tied[0]);
    let lowest = of_first.min_by_key(|place| acks[*place].0).unwrap_or(0);
    let (before, behind) = (&acks[..lowest], &acks[lowest + 1..]);
    if behind.is_empty() {
        rows.push(AT_HAND);
    } else if !behind.iter().any(|(_, slip)| tied[1..].contains(slip)) {
        rows.push(BEHIND_OTHERS);
    }
    if before.iter().any(|(_, slip)| *slip == tied[0]) {
        rows.push(NOT_ITS_FIRST);
    }
    rows
}

/// The acks that a book has recorded for each account's next number, in the order in which they came; and the number of
/// each account's latest accepted slip.
#[derive(Default)]
pub struct Arrivals {
    acks: BTreeMap<u8, Vec<Ack>>,
    accepted: BTreeMap<u8, u32>,
}

impl Arrivals {
    /// One more is recorded: gives all for its account and number, this one last.
    fn record(&mut self, seat: u8, slip: Slip) -> &[Ack] {
        let acks = self.acks.entry(slip.account).or_default();
        // booking has cleared those of an earlier number
        acks.retain(|(_, earlier)| earlier.number == slip.number);
        acks.push((seat, slip));
        acks
    }

    /// Takes a message and the letter of its reply: N tells that an ack is recorded, K that a slip is accepted, and P
    /// that an ack is recorded, unless it is late. Gives the acks that an ordinary P rests on.
    pub fn take(&mut self, message: &Message, letter: &str) -> Option<&[Ack]> {
        match (message, letter) {
            (Message::Ack { slip, .. } | Message::Ruling(slip), "K") => {
                self.accepted.insert(slip.account, slip.number);
                None
            }
            (Message::Ack { slip, .. }, "P") if self.has_accepted(slip) => None,
            (Message::Ack { seat, slip }, "P") => Some(self.record(*seat, *slip)),
            (Message::Ack { seat, slip }, "N") => {
                self.record(*seat, *slip);
                None
            }
            _ => None,
        }
    }

    /// Whether the latest accepted slip of this account has this number: then a P is a late one.
    pub fn has_accepted(&self, slip: &Slip) -> bool {
        self.accepted.get(&slip.account) == Some(&slip.number)
    }

    /// Takes a message and its reply, letter and values, and gives the rows of an ordinary P.
    pub fn rows(&mut self, message: &Message, reply: &[&str]) -> Vec<&'static str> {
        let letter = reply.first().unwrap_or(&"");
        self.take(message, letter).map_or(Vec::new(), rows)
    }
}
