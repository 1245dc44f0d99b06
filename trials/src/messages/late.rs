//! Acks for a number that is accepted or booked, request 5 of document 02: the rows of a late P, and of 6 and 8 where
//! none comes.

use crate::messages::history::History;
use reference::book::{Book, Message, Slip};
use std::collections::BTreeMap;

pub const ROWS: [&str; 16] = [
    WAITS,
    BOOKED,
    BY_RULING,
    BY_ACKS,
    COMES_AGAIN,
    SECOND_ACK,
    NEXT_PUT_FORWARD,
    SELF_PAYMENT,
    EQUAL[0],
    EQUAL[1],
    LATE_BEFORE[0],
    LATE_BEFORE[1],
    WAITED_THEN,
    PUT_FORWARD_BEFORE[0],
    PUT_FORWARD_BEFORE[1],
    LOWER,
];
/// A late P while the slip waits, and once it is booked; of a slip that a ruling accepted, or acks did.
const WAITS: &str = "late P: the slip waits";
const BOOKED: &str = "late P: it is booked";
const BY_RULING: &str = "late P: accepted by a ruling";
const BY_ACKS: &str = "late P: accepted by acks";
/// While it waits, on an ack that was recorded before, and on a second one of its seat.
const COMES_AGAIN: &str = "late P: a recorded ack again";
const SECOND_ACK: &str = "late P: a seat's second ack";
/// Once it is booked, with a slip put forward for the next number.
const NEXT_PUT_FORWARD: &str = "late P: next number put forward";
const SELF_PAYMENT: &str = "late P: a self-payment";
/// No late P: 6 and 8 for an ack equal to the retained slip, with nothing put forward; for one that conflicts, behind a
/// late P, behind one that came while the slip waited, and behind an ordinary P; and for one that conflicts with what
/// was accepted for a lower number, with nothing put forward.
const EQUAL: [&str; 2] = ["no late P: equal, 6", "no late P: equal, 8"];
const LATE_BEFORE: [&str; 2] = ["no late P: late before, 6", "no late P: late before, 8"];
const WAITED_THEN: &str = "no late P: late when it waited, 6";
const PUT_FORWARD_BEFORE: [&str; 2] = ["no late P: put forward before, 6", "no late P: put forward before, 8"];
const LOWER: &str = "no late P: lower number, 6";

/// What the replies told of each number, and of each account's latest accepted slip.
#[derive(Default)]
pub struct Retentions {
    history: History,
    /// whether a ruling accepted it
    ruled: BTreeMap<u8, bool>,
    /// the number that was last put forward late, and whether its slip waited then
    late: BTreeMap<u8, (u32, bool)>,
}

impl Retentions {
    /// The rows of a message to this book and of its reply, letter and values.
    pub fn rows(&mut self, before: &Book, message: &Message, reply: &[&str]) -> Vec<&'static str> {
        let rows = match (message, reply) {
            (Message::Ack { seat, slip }, ["P", ..]) => {
                let late = before.late(message);
                late.map_or(Vec::new(), |retained| self.put_forward(before, *seat, slip, &retained))
            }
            (Message::Ack { slip, .. }, ["R", code @ ("6" | "8")]) => {
                self.refused(slip, *code == "8").into_iter().collect()
            }
            _ => Vec::new(),
        };
        if let (Message::Ack { slip, .. } | Message::Ruling(slip), ["K", ..]) = (message, reply) {
            let ruled = matches!(message, Message::Ruling(_));
            self.ruled.insert(slip.account, ruled);
        }
        self.history.take(message, reply.first().unwrap_or(&""));
        rows
    }

    /// The rows of a late P.
    fn put_forward(&mut self, before: &Book, seat: u8, slip: &Slip, retained: &Slip) -> Vec<&'static str> {
        let account = before.account(slip.account.into());
        let waits = account.waiting.is_some();
        let recorded = account.acks[usize::from(seat)].filter(|_| waits);
        let ruled = self.ruled.get(&slip.account) == Some(&true);
        self.late.insert(slip.account, (slip.number, waits));
        let rows = [
            (WAITS, waits),
            (BOOKED, !waits),
            (BY_RULING, ruled),
            (BY_ACKS, !ruled),
            (COMES_AGAIN, recorded == Some(*slip)),
            (SECOND_ACK, recorded.map_or(false, |first| first != *slip)),
            (NEXT_PUT_FORWARD, !waits && account.put_forward),
            (SELF_PAYMENT, retained.pays_itself()),
        ];
        rows.iter().filter(|(_, met)| *met).map(|(row, _)| *row).collect()
    }

    /// The row of 8, or of 6, where one thing alone keeps the late P away: the ack is equal to the slip, its number is
    /// put forward, or a higher one is retained.
    fn refused(&self, slip: &Slip, waits: bool) -> Option<&'static str> {
        let (accepted, latest) = (self.history.accepted(slip)?, self.history.latest(slip.account)?);
        let lower = slip.number < latest.number;
        let late = self
            .late
            .get(&slip.account)
            .filter(|(number, _)| *number == slip.number);
        let place = usize::from(waits);
        match (accepted != *slip, self.history.has_put_forward(slip), late) {
            (true, false, _) if lower => Some(LOWER),
            _ if lower => None,
            (false, false, _) => Some(EQUAL[place]),
            (true, true, Some((_, true))) if !waits => Some(WAITED_THEN),
            (true, true, Some(_)) => Some(LATE_BEFORE[place]),
            (true, true, None) => Some(PUT_FORWARD_BEFORE[place]),
            _ => None,
        }
    }
}
