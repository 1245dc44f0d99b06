//! Request 5 of document 02 on a recorded run, read off the pages and calls alone: a seat puts forward at most once for
//! a number; once it has accepted, only the latest accepted slip, only under the newest rules, and then always when an
//! ack conflicts with it.

use super::printed::Reply;
use super::record::{key_of, Call, Key, Record};
use super::slate::Slate;
use crate::messages::ties::Ack;
use reference::book::{Message, OpeningPage, Slip};
use reference::rules::Rules;
use std::collections::{HashMap, HashSet};

pub const ORDINARY: &str = "P before the acceptance";
pub const LATE: &str = "late P";
pub const WAITS: &str = "late P while the slip waits";
pub const BOOKED: &str = "late P once the slip is booked";
pub const BY_ACKS: &str = "late P of a slip accepted by acks";
pub const BY_RULING: &str = "late P of a slip accepted by a ruling";
pub const OF_HONEST: &str = "late P on an honest seat's ack";
pub const OF_BAD: &str = "late P on a bad seat's ack";
pub const ACROSS_WAITS: &str = "late P of a slip that was accepted before the switch, while it waits";
pub const ACROSS_BOOKED: &str = "late P of a slip that was accepted before the switch, once it is booked";
pub const USED_UP: &str = "a conflicting ack met with 6 or 8: put forward before the acceptance";
pub const MARK_ACROSS: &str = "a conflicting ack met with 6 or 8: put forward and accepted before the switch";
pub const REPEATED: &str = "a conflicting ack met with 6 or 8: put forward late";
pub const BOOKED_BEFORE: &str = "a conflicting ack met with 6: booked before the switch";
pub const EARLIER_RULES: &str = "a conflicting ack met with 6 or 8: earlier rules";
pub const BOTH_WAYS: &str = "a conflicting ack met with a late P, and at a seat of earlier rules with 6 or 8";

pub const ROWS: [&str; 16] = [
    ORDINARY,
    LATE,
    WAITS,
    BOOKED,
    BY_ACKS,
    BY_RULING,
    OF_HONEST,
    OF_BAD,
    ACROSS_WAITS,
    ACROSS_BOOKED,
    USED_UP,
    MARK_ACROSS,
    REPEATED,
    BOOKED_BEFORE,
    EARLIER_RULES,
    BOTH_WAYS,
];

/// How a reply can be wrong.
#[derive(Clone, Copy, PartialEq, Eq, Debug)]
pub enum Wrong {
    NoAck,
    OtherNumber,
    Again,
    OtherSlip,
    NotDue,
    Passed,
    Missing,
}

impl Wrong {
    pub const ALL: [Wrong; 7] = [
        Wrong::NoAck,
        Wrong::OtherNumber,
        Wrong::Again,
        Wrong::OtherSlip,
        Wrong::NotDue,
        Wrong::Passed,
        Wrong::Missing,
    ];

    fn text(self) -> &'static str {
        match self {
            Wrong::NoAck => "is answered P and is no ack",
            Wrong::OtherNumber => "is answered P for another account or number",
            Wrong::Again => "is answered P for a number that was put forward before",
            Wrong::OtherSlip => "is answered P with another slip than the accepted one",
            Wrong::NotDue => "is answered by a late P that is not due",
            Wrong::Passed => "is answered P for a booked number that is not the latest accepted one",
            Wrong::Missing => "has to be answered by a late P",
        }
    }
}

/// What is wrong with the put-forwards of the run.
pub fn faults(record: &Record) -> Vec<(Wrong, String)> {
    walked(record).faults
}

/// The rows of put-forwards, each as often as the run met it.
pub fn met(record: &Record) -> Vec<&'static str> {
    walked(record).met
}

fn walked(record: &Record) -> Walk {
    let mut walk = Walk {
        bad: record.bad.clone(),
        seats: record.pages.iter().map(Seat::open).collect(),
        ways: HashMap::new(),
        faults: Vec::new(),
        met: Vec::new(),
    };
    record.calls().for_each(|call| walk.take(call));
    walk
}

struct Walk {
    bad: Vec<bool>,
    seats: Vec<Seat>,
    /// How each ack, by its sender and slip, that conflicts with an accepted slip, the last here, was met: `true` by a
    /// late P, `false` under earlier rules alone with 6 or 8.
    ways: HashMap<(u8, Slip, Slip), HashSet<bool>>,
    faults: Vec<(Wrong, String)>,
    met: Vec<&'static str>,
}

/// What a seat did so far.
struct Seat {
    page: OpeningPage,
    slate: Slate,
    rules: Option<Rules>,
    /// The latest accepted slip of each account.
    latest: HashMap<u8, Accepted>,
    put_forward: HashSet<Key>,
}

#[derive(Clone, Copy)]
struct Accepted {
    slip: Slip,
    by_ruling: bool,
    /// Whether anything was put forward for its number before.
    before: bool,
    /// Accepted under earlier rules.
    earlier: bool,
    /// Booked under them too, so that it is not retained.
    forgotten: bool,
}

impl Seat {
    fn open(page: &OpeningPage) -> Seat {
        Seat {
            page: page.clone(),
            slate: Slate::new(page),
            rules: None,
            latest: HashMap::new(),
            put_forward: HashSet::new(),
        }
    }

    /// Whether an ack passes 4 and 5.
    fn is_in_range(&self, sender: u8, slip: &Slip) -> bool {
        let Slip {
            account,
            number,
            value,
            recipient,
        } = *slip;
        let OpeningPage { n, k, .. } = self.page;
        let within = value > 0 && u64::from(value) <= self.page.sum();
        sender < n && account < k && recipient < k && number > 0 && within
    }

    /// The accepted slip of the same account and number.
    fn accepted(&self, slip: &Slip) -> Option<Accepted> {
        let accepted = self.latest.get(&slip.account).copied();
        accepted.filter(|accepted| accepted.slip.number == slip.number)
    }

    /// Whether this ack has to be answered by a late P.
    fn is_due(&self, rules: Rules, sender: u8, slip: &Slip) -> bool {
        let fresh = !self.put_forward.contains(&key_of(slip));
        let retained = |accepted: Accepted| accepted.slip != *slip && !accepted.forgotten;
        let conflicts = self.accepted(slip).map_or(false, retained);
        rules.put_forward_late() && fresh && conflicts && self.is_in_range(sender, slip)
    }

    /// At the switch to the newest rules what is booked is not retained.
    fn switch(&mut self) {
        for accepted in self.latest.values_mut() {
            accepted.forgotten = self.slate.has_booked(&accepted.slip);
        }
    }
}

impl Walk {
    fn take(&mut self, call: &Call) {
        let seat = &mut self.seats[call.seat];
        let before = seat.rules.replace(call.rules);
        if call.rules.put_forward_late() && before.map_or(false, |before| !before.put_forward_late()) {
            seat.switch();
        }
        if let Message::Ack { seat, slip } = call.message {
            self.ack(call, seat, slip);
        } else if call.put_forward().is_some() {
            self.fault(call, Wrong::NoAck);
        }
        if let Some(slip) = call.accepted() {
            self.accept(call, slip);
        }
        let seat = &mut self.seats[call.seat];
        seat.put_forward.extend(call.put_forward().iter().map(key_of));
        seat.slate.feed(call);
    }

    fn fault(&mut self, call: &Call, wrong: Wrong) {
        let Call { seat, message, .. } = call;
        let what = format!("at seat {seat} {message} {}", wrong.text());
        self.faults.push((wrong, what));
    }

    fn accept(&mut self, call: &Call, slip: Slip) {
        let seat = &mut self.seats[call.seat];
        let accepted = Accepted {
            slip,
            by_ruling: matches!(call.message, Message::Ruling(_)),
            before: seat.put_forward.contains(&key_of(&slip)),
            earlier: !call.rules.put_forward_late(),
            forgotten: false,
        };
        seat.latest.insert(slip.account, accepted);
    }

    fn ack(&mut self, call: &Call, sender: u8, slip: Slip) {
        let seat = &self.seats[call.seat];
        let (due, accepted) = (seat.is_due(call.rules, sender, &slip), seat.accepted(&slip));
        let refused = matches!(call.reply, Reply::Refused { code: 6 | 8 });
        match (call.put_forward(), accepted) {
            (Some(put), _) if key_of(&put) != key_of(&slip) => self.fault(call, Wrong::OtherNumber),
            (Some(put), _) if seat.put_forward.contains(&key_of(&put)) => self.fault(call, Wrong::Again),
            (Some(put), Some(accepted)) if put != accepted.slip => self.fault(call, Wrong::OtherSlip),
            (Some(_), Some(_)) if !due => self.fault(call, Wrong::NotDue),
            (Some(_), Some(accepted)) => self.put_forward_late(call, (sender, slip), accepted),
            (Some(put), None) if seat.slate.has_booked(&put) => self.fault(call, Wrong::Passed),
            (Some(_), None) => self.met.push(ORDINARY),
            (None, _) if due => self.fault(call, Wrong::Missing),
            (None, Some(accepted)) if accepted.slip != slip && refused => self.not_late(call, (sender, slip), accepted),
            _ => {}
        }
    }

    fn put_forward_late(&mut self, call: &Call, ack: Ack, accepted: Accepted) {
        let booked = self.seats[call.seat].slate.has_booked(&accepted.slip);
        let bad = self.bad.get(usize::from(ack.0)) == Some(&true);
        self.met.extend([
            LATE,
            if booked { BOOKED } else { WAITS },
            if accepted.by_ruling { BY_RULING } else { BY_ACKS },
            if bad { OF_BAD } else { OF_HONEST },
        ]);
        let across = if booked { ACROSS_BOOKED } else { ACROSS_WAITS };
        self.met.extend(accepted.earlier.then_some(across));
        self.note_way(ack, accepted, true);
    }

    /// A conflicting ack that meets 6 or 8 all the same. It is counted where one reason alone decides.
    fn not_late(&mut self, call: &Call, ack: Ack, accepted: Accepted) {
        let Accepted { before, forgotten, .. } = accepted;
        match (call.rules.put_forward_late(), before, forgotten) {
            (false, false, _) => {
                self.met.push(EARLIER_RULES);
                self.note_way(ack, accepted, false);
            }
            (true, true, false) => self.met.push(if accepted.earlier { MARK_ACROSS } else { USED_UP }),
            (true, false, true) => self.met.push(BOOKED_BEFORE),
            (true, false, false) => self.met.push(REPEATED),
            _ => {}
        }
    }

    /// Counts an ack when it has been met in both ways, each at a seat that accepted the same slip and put nothing
    /// forward before.
    fn note_way(&mut self, ack: Ack, accepted: Accepted, late: bool) {
        let (sender, slip) = ack;
        let ways = self.ways.entry((sender, slip, accepted.slip)).or_default();
        if ways.insert(late) && ways.len() == 2 {
            self.met.push(BOTH_WAYS);
        }
    }
}
