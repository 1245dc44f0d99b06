//! Whether a recorded run keeps the premises of demand 3, read off the record alone and not off how it was made.

use super::record::{key_of, Call, Key, Record};
use reference::book::{Message, Slip};
use std::collections::{BTreeMap, HashMap, HashSet};

#[derive(Clone, Copy, PartialEq, Eq, PartialOrd, Ord, Debug)]
pub enum Premise {
    /// Each honest seat holds a book opened from the one page.
    OnePage,
    /// At most f seats are bad.
    AtMostFBad,
    /// An ack that names an honest seat as its sender carries a slip that an earlier call at that sender acked.
    OwnAcks,
    /// All rulings for one account and number carry the same slip, whichever seats they reach.
    OneRuling,
    /// Before the first of them, some call put forward a slip with that account and number.
    PutForwardFirst,
    /// If all slips so put forward before it are equal, the ruling is for that slip.
    OnlyOnePutForward,
}

/// The premises that the run breaks, each with the first place where it does.
pub fn broken(record: &Record) -> BTreeMap<Premise, String> {
    let mut walk = Walk::default();
    let page = &record.pages[0];
    let mut honest = record.pages.iter().zip(&record.bad).filter(|(_, bad)| !**bad);
    let first = honest.next().map(|(first, _)| first);
    if honest.any(|(other, _)| Some(other) != first) {
        walk.breaks(
            Premise::OnePage,
            "two honest seats open from different pages".to_string(),
        );
    }
    let bad = record.bad.iter().filter(|bad| **bad).count();
    if bad > page.f as usize {
        walk.breaks(Premise::AtMostFBad, format!("{bad} seats are bad and f is {}", page.f));
    }
    for call in record.calls() {
        match call.message {
            Message::Ack { seat, slip } if record.bad.get(seat as usize) == Some(&false) => walk.ack(seat, slip),
            Message::Ruling(slip) => walk.ruling(slip),
            _ => {}
        }
        walk.note(call);
    }
    walk.broken
}

/// What the calls so far did.
#[derive(Default)]
struct Walk {
    acked: HashSet<(usize, Slip)>,
    put_forward: HashMap<Key, Vec<Slip>>,
    /// The first ruling for an account and number, and the slips put forward before it.
    first: HashMap<Key, (Slip, Vec<Slip>)>,
    broken: BTreeMap<Premise, String>,
}

impl Walk {
    fn breaks(&mut self, premise: Premise, what: String) {
        self.broken.entry(premise).or_insert(what);
    }

    fn ack(&mut self, sender: u8, slip: Slip) {
        if !self.acked.contains(&(sender as usize, slip)) {
            self.breaks(Premise::OwnAcks, format!("an ack of {} names seat {sender}", slip));
        }
    }

    fn ruling(&mut self, slip: Slip) {
        let key = key_of(&slip);
        let before = self.put_forward.get(&key).cloned().unwrap_or_default();
        let (first, before) = self.first.entry(key).or_insert((slip, before)).clone();
        if slip != first {
            self.breaks(Premise::OneRuling, format!("rulings for {} and {}", first, slip));
        }
        if before.is_empty() {
            self.breaks(Premise::PutForwardFirst, format!("a ruling for {} before any P", slip));
        }
        let all_equal = before.windows(2).all(|pair| pair[0] == pair[1]);
        if !before.is_empty() && all_equal && slip != before[0] {
            let what = format!("a ruling for {}, only {} was put forward", slip, before[0]);
            self.breaks(Premise::OnlyOnePutForward, what);
        }
    }

    fn note(&mut self, call: &Call) {
        if let Some(slip) = call.acked() {
            self.acked.insert((call.seat, slip));
        }
        if let Some(slip) = call.put_forward() {
            self.put_forward.entry(key_of(&slip)).or_default().push(slip);
        }
    }
}
