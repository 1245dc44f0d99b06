//! Request 7 of document 02 on a recorded run: each two honest seats' bundles are joined, and who is found is bad.

use super::demand3::{Check, Failure};
use super::record::{key_of, Key, Record};
use crate::evidence::joined::{tried, Given};
use crate::shared::dice::Dice;
use reference::book::{Message, Slip};
use reference::bundle;
use reference::evidence::{Evidence, Which};
use std::collections::HashMap;

/// What the joins of a run met; each has to occur.
pub const ROWS: [&str; 4] = [FOUND, NONE, FIRST_SHOWN, SECOND_SHOWN];
const FOUND: &str = "joins of two honest seats' bundles that find a bad seat";
const NONE: &str = "joins of two honest seats' bundles that find none";
const FIRST_SHOWN: &str = "joins that show the first's ack beside a ruling on it";
const SECOND_SHOWN: &str = "joins that show the second's ack, as the first's is the ruling";

/// The rows that a run's joins met, each as often, and what is wrong.
#[derive(Default)]
pub struct Joins {
    pub met: Vec<&'static str>,
    pub faults: Vec<String>,
}

/// What is wrong with the joins of a run.
pub fn failures(joins: Joins) -> Vec<Failure> {
    let check = Check::Join;
    joins.faults.into_iter().map(|what| Failure { check, what }).collect()
}

/// Joins each two bundles of honest seats. A bundle is what the seat was called with, all of it: a seat is brought no
/// more messages than a bundle holds.
pub fn joins(record: &Record, dice: &mut Dice) -> Joins {
    let bundles = bundles(record);
    let rulings = rulings(record);
    let mut joins = Joins::default();
    for (place, (one, first)) in bundles.iter().enumerate() {
        for (other, second) in &bundles[place + 1..] {
            let given = Given {
                first: first.clone(),
                second: second.clone(),
                ruled: RULED_NOWHERE,
            };
            if let Err(what) = joins.join(record, &rulings, given, dice) {
                joins
                    .faults
                    .push(format!("the bundles of seats {one} and {other}: {what}"));
            }
        }
    }
    joins
}

/// A slip that no ruling is for.
const RULED_NOWHERE: Slip = Slip {
    account: 255,
    number: 0,
    value: u32::MAX,
    recipient: 255,
};

/// Each honest seat and its bundle.
fn bundles(record: &Record) -> Vec<(usize, Vec<u8>)> {
    let honest = (0..record.bad.len()).filter(|seat| !record.bad[*seat]);
    let bundle = |seat: usize| {
        let calls = record.calls().filter(|call| call.seat == seat);
        let messages: Vec<Message> = calls.map(|call| call.message).collect();
        (seat, bundle::write(&record.pages[seat], &messages))
    };
    honest.map(bundle).collect()
}

/// The council's ruling for an account and number.
fn rulings(record: &Record) -> HashMap<Key, Slip> {
    let rulings = record.calls().filter_map(|call| match call.message {
        Message::Ruling(slip) => Some((key_of(&slip), slip)),
        _ => None,
    });
    rulings.collect()
}

impl Joins {
    /// Joins two bundles, and where a seat is found, once more with the ruling on what it acked.
    fn join(
        &mut self,
        record: &Record,
        rulings: &HashMap<Key, Slip>,
        mut given: Given,
        dice: &mut Dice,
    ) -> Result<(), String> {
        let acked = match found(record, &given, dice)? {
            Some((acked, _)) => acked,
            None => {
                self.met.push(NONE);
                return Ok(());
            }
        };
        self.met.push(FOUND);
        if let Some(ruling) = rulings.get(&key_of(&acked)) {
            given.ruled = *ruling;
            let (_, shown) = found(record, &given, dice)?.ok_or("with the ruling none is found")?;
            self.met.push(shown.of([FIRST_SHOWN, SECOND_SHOWN]));
        }
        Ok(())
    }
}

/// The slip that is shown and whose it is, if a seat is found, which has to be bad.
fn found(record: &Record, given: &Given, dice: &mut Dice) -> Result<Option<(Slip, Which)>, String> {
    match tried(dice, given)? {
        Evidence::None => Ok(None),
        Evidence::Found { seat, shown, slip, .. } if record.bad[usize::from(seat)] => Ok(Some((slip, shown))),
        Evidence::Found { seat, .. } => Err(format!("seat {seat} is found and is honest")),
        refused => Err(format!("they are refused, {refused:?}")),
    }
}
