//! Request 2 of document 02 on a recorded run: what two seats, or one, put forward on equal acks is equal. The first
//! rules left it free, so this holds of seats that answer by later ones. A late P rests on no acks.

use super::printed::Reply;
use super::record::Record;
use crate::messages::ties::{self, Ack, Arrivals};
use reference::book::Slip;
use reference::rules::Rules;
use std::collections::hash_map::{Entry, HashMap};

/// A reply P that is not late: the seat that gave it and by which rules, the slip that it carries, and the recorded
/// acks that it rests on, as they came, the ack at hand last.
pub struct PutForward {
    pub seat: usize,
    pub rules: Rules,
    pub slip: Slip,
    pub acks: Vec<Ack>,
}

impl PutForward {
    /// Whether another slip has as many acks.
    pub fn is_tied(&self) -> bool {
        ties::tied(&self.acks).len() > 1
    }

    /// Whether it carries, of tied slips, another than the first by its lowest seat.
    pub fn is_another(&self) -> bool {
        ties::tied(&self.acks).first() != Some(&self.slip)
    }
}

/// Every P of the run that is not late.
pub fn put_forwards(record: &Record) -> Vec<PutForward> {
    let mut recorded: Vec<Arrivals> = record.pages.iter().map(|_| Arrivals::default()).collect();
    let mut all = Vec::new();
    for call in record.calls() {
        let acks = recorded[call.seat].take(&call.message, letter(call.reply));
        if let (Some(acks), Some(slip)) = (acks, call.put_forward()) {
            all.push(PutForward {
                seat: call.seat,
                rules: call.rules,
                slip,
                acks: acks.to_vec(),
            });
        }
    }
    all
}

/// The letters by which acks are told to be recorded, and slips to be accepted.
fn letter(reply: Reply) -> &'static str {
    match reply {
        Reply::Noted => "N",
        Reply::PutForward(_) => "P",
        Reply::Accepted { .. } => "K",
        _ => "",
    }
}

/// Each P that rests on the same acks, seat by seat, as an earlier one, and before it the first that does; both by
/// rules that leave no tie free.
pub fn pairs(all: &[PutForward]) -> Vec<[&PutForward; 2]> {
    let mut first: HashMap<Vec<Ack>, &PutForward> = HashMap::new();
    let mut pairs = Vec::new();
    for one in all.iter().filter(|one| !one.rules.leave_ties_free()) {
        match first.entry(ties::by_seat(&one.acks)) {
            Entry::Vacant(entry) => drop(entry.insert(one)),
            Entry::Occupied(entry) => pairs.push([*entry.get(), one]),
        }
    }
    pairs
}

/// The pairs whose slips differ.
pub fn faults(record: &Record) -> Vec<String> {
    let all = put_forwards(record);
    let mut faults = Vec::new();
    for [first, second] in pairs(&all) {
        if first.slip != second.slip {
            faults.push(format!(
                "on the same acks seat {} put forward {}, seat {} put forward {}",
                first.seat, first.slip, second.seat, second.slip
            ));
        }
    }
    faults
}
