//! Demand 3 on a recorded run: agreement, the slate, and equal counts; and beside it that each seat acks once, that P
//! are alike, that each seat answers by its rules, that it puts forward once for a number, and that the council waits.

use super::alike;
use super::council;
use super::late::{self, Wrong};
use super::printed::{Closing, Reply};
use super::record::{key_of, Call, Event, Key, Record};
use super::slate::Slate;
use super::switches;
use reference::book::{Message, Slip};
use std::collections::HashMap;

#[derive(Clone, Copy, PartialEq, Eq, Debug)]
pub enum Check {
    /// The text is not what `daybook` may print at all, or a longer bundle changed an older reply; or the real library
    /// goes on otherwise with a book that is held.
    Text,
    Agreement,
    Slate,
    EqualCounts,
    /// Not of demand 3, but what it rests on.
    AckedOnce,
    /// Not of demand 3, but of document 02, requests 2, 3 and 5.
    Alike,
    Rules,
    PutForward(Wrong),
    Wait,
    /// Of request 7, by `evidence`.
    Join,
}

pub struct Failure {
    pub check: Check,
    pub what: String,
}

/// Every failure in the order of the run; none if the run is as demand 3, `alike`, `switches`, `late` and `council`
/// say.
pub fn failures(record: &Record) -> Vec<Failure> {
    let of = |check, faults: Vec<String>| faults.into_iter().map(move |what| Failure { check, what });
    let mut all: Vec<Failure> = of(Check::Text, record.faults.clone()).collect();
    all.extend(of(Check::Agreement, agreement(record)));
    all.extend(of(Check::Slate, slates(record)));
    all.extend(of(Check::EqualCounts, equal_counts(record)));
    all.extend(of(Check::AckedOnce, acked_once(record)));
    all.extend(of(Check::Alike, alike::faults(record)));
    all.extend(of(Check::Rules, switches::faults(record)));
    let late = late::faults(record).into_iter();
    all.extend(late.map(|(wrong, what)| Failure {
        check: Check::PutForward(wrong),
        what,
    }));
    all.extend(of(Check::Wait, council::faults(record)));
    all
}

/// Any two accepted slips with equal account and number are equal, whether one honest seat accepted them or two.
fn agreement(record: &Record) -> Vec<String> {
    let mut accepted: HashMap<Key, (usize, Slip)> = HashMap::new();
    let mut faults = Vec::new();
    for call in record.calls() {
        let slip = match call.accepted() {
            Some(slip) => slip,
            None => continue,
        };
        let (seat, first) = *accepted.entry(key_of(&slip)).or_insert((call.seat, slip));
        if first != slip {
            faults.push(format!(
                "seat {seat} accepted {}, seat {} accepted {}",
                first, call.seat, slip
            ));
        }
    }
    faults
}

/// A seat acks one slip for an account and number, whenever it switches.
fn acked_once(record: &Record) -> Vec<String> {
    let mut acked: HashMap<(usize, Key), Slip> = HashMap::new();
    let mut faults = Vec::new();
    for call in record.calls() {
        let slip = match call.acked() {
            Some(slip) => slip,
            None => continue,
        };
        if let Some(first) = acked.insert((call.seat, key_of(&slip)), slip) {
            faults.push(format!("seat {} acked {first} and {slip}", call.seat));
        }
    }
    faults
}

/// The printed balances and current numbers are the slate's balances and counts, and so is the balance in each B.
fn slates(record: &Record) -> Vec<String> {
    let mut slates: Vec<Slate> = record.pages.iter().map(Slate::new).collect();
    let mut calls = vec![0; slates.len()];
    let mut faults = Vec::new();
    for event in &record.events {
        let (seat, fault) = match event {
            Event::Call(call) => {
                calls[call.seat] += 1;
                slates[call.seat].feed(call);
                (call.seat, balance_fault(call, &slates[call.seat]))
            }
            Event::Look { seat, closings } => (*seat, closing_fault(closings, &slates[*seat])),
        };
        faults.extend(fault.map(|what| format!("seat {seat} after {} calls: {what}", calls[seat])));
    }
    faults
}

fn balance_fault(call: &Call, slate: &Slate) -> Option<String> {
    match (call.message, call.reply) {
        (Message::Question { account }, Reply::Balance(balance)) if balance != slate.balance(account) => Some(format!(
            "B {balance} for account {account}, the slate has {}",
            slate.balance(account)
        )),
        _ => None,
    }
}

fn closing_fault(closings: &[Closing], slate: &Slate) -> Option<String> {
    if balances_of(closings) == slate.balances() && currents_of(closings) == slate.counts() {
        return None;
    }
    Some(format!(
        "printed balances {:?} and numbers {:?}, the slate has {:?} and {:?}",
        balances_of(closings),
        currents_of(closings),
        slate.balances(),
        slate.counts()
    ))
}

/// Equal counts in every account mean equal balances, at any two places: those of the closing lines that were looked
/// at, and those of the slates after each call answered K.
fn equal_counts(record: &Record) -> Vec<String> {
    let mut slates: Vec<Slate> = record.pages.iter().map(Slate::new).collect();
    let mut seen = Seen::default();
    for event in &record.events {
        match event {
            Event::Look { seat, closings } => seen.place(*seat, currents_of(closings), balances_of(closings)),
            Event::Call(call) => {
                let slate = &mut slates[call.seat];
                slate.feed(call);
                if call.accepted().is_some() {
                    seen.place(call.seat, slate.counts().to_vec(), slate.balances().to_vec());
                }
            }
        }
    }
    seen.faults
}

/// The first place at which these counts were seen: its seat and balances.
#[derive(Default)]
struct Seen {
    first: HashMap<Vec<u32>, (usize, Vec<u32>)>,
    faults: Vec<String>,
}

impl Seen {
    fn place(&mut self, seat: usize, counts: Vec<u32>, balances: Vec<u32>) {
        let (first, before) = self
            .first
            .entry(counts.clone())
            .or_insert_with(|| (seat, balances.clone()));
        if *before != balances {
            let what = format!("counts {counts:?} with {before:?} at seat {first}, with {balances:?} at seat {seat}");
            self.faults.push(what);
        }
    }
}

fn balances_of(closings: &[Closing]) -> Vec<u32> {
    closings.iter().map(|closing| closing.balance).collect()
}

pub fn currents_of(closings: &[Closing]) -> Vec<u32> {
    closings.iter().map(|closing| closing.current).collect()
}
