//! Request 3 of document 02 on a recorded run: each seat answers by its rules and goes back to no earlier ones; and
//! what the run met of self-payments and of switches. Here a seat has switched once it turns self-payments down.

use super::printed::Reply;
use super::record::{key_of, Call, Key, Record};
use super::slate::Slate;
use reference::book::{Message, Slip};
use reference::rules::Rules;
use std::collections::HashSet;

/// The places at which a seat goes back to earlier rules, or answers as its rules do not.
pub fn faults(record: &Record) -> Vec<String> {
    let mut rules: Vec<Option<Rules>> = vec![None; record.pages.len()];
    let mut faults = Vec::new();
    for call in record.calls() {
        let before = rules[call.seat].replace(call.rules);
        if before > Some(call.rules) {
            faults.push(format!("seat {} goes back to {:?}", call.seat, call.rules));
        }
        let turned_down = call.reply == Reply::Refused { code: 20 };
        let of_itself = matches!(call.message, Message::Request(slip) | Message::Slip(slip) if slip.pays_itself());
        let taken = matches!(call.reply, Reply::Circulate | Reply::Ack);
        let wrong = if call.rules.turn_down_self_payments() {
            of_itself && taken || turned_down && !of_itself
        } else {
            turned_down
        };
        if wrong {
            faults.push(format!(
                "seat {} replied {:?} to {} by the rules {:?}",
                call.seat, call.reply, call.message, call.rules
            ));
        }
    }
    faults
}

pub const ACKED: &str = "self-payments acked under the first rules";
pub const TURNED_DOWN: &str = "self-payments that a switched seat met with 20 and another had acked";
pub const ACCEPTED: &str = "self-payments accepted by acks, with seats switched and not";
pub const BOOKED: &str = "such self-payments booked at switched seats";
pub const IN_BETWEEN: &str = "self-payments booked whose seat acked them and then switched";
pub const SAME_AGAIN: &str = "the acked self-payment met with 20 after the switch";
pub const ANOTHER: &str = "another slip of its number met with 12 after the switch";
pub const RULED: &str = "slips accepted by a ruling whose seat had put one forward and then switched";

/// The rows of self-payments and switches, each as often as the run met it.
pub fn met(record: &Record) -> Vec<&'static str> {
    let mut walk = Walk {
        seats: record.pages.iter().map(|page| Seat::open(Slate::new(page))).collect(),
        acked: HashSet::new(),
        met: Vec::new(),
    };
    record.calls().for_each(|call| walk.take(call));
    walk.met
}

struct Walk {
    seats: Vec<Seat>,
    /// The seats' acks of self-payments.
    acked: HashSet<(usize, Slip)>,
    met: Vec<&'static str>,
}

/// What a seat did so far.
struct Seat {
    slate: Slate,
    rules: Option<Rules>,
    /// The self-payments that it acked and has not booked, and the numbers for which it put a slip forward; `true` once
    /// a switch came behind.
    marks: Vec<(Slip, bool)>,
    put_forward: Vec<(Key, bool)>,
    /// The self-payments that it accepted and has not booked; `true` for those that count as ACCEPTED.
    accepted: Vec<(Slip, bool)>,
}

impl Seat {
    fn open(slate: Slate) -> Seat {
        Seat {
            slate,
            rules: None,
            marks: Vec::new(),
            put_forward: Vec::new(),
            accepted: Vec::new(),
        }
    }

    fn has_switched(&self) -> bool {
        self.rules.map_or(false, Rules::turn_down_self_payments)
    }

    fn note_switch(&mut self) {
        self.marks.iter_mut().for_each(|(_, behind)| *behind = true);
        self.put_forward.iter_mut().for_each(|(_, behind)| *behind = true);
    }

    /// Whether this seat acked a self-payment of this number before it switched, and has not booked it.
    fn holds_mark(&self, slip: &Slip) -> bool {
        let mut marks = self.marks.iter();
        marks.any(|(marked, behind)| *behind && key_of(marked) == key_of(slip))
    }
}

impl Walk {
    fn take(&mut self, call: &Call) {
        let seat = &mut self.seats[call.seat];
        if seat.rules.replace(call.rules) < Some(call.rules) {
            seat.note_switch();
        }
        if let Message::Slip(slip) = call.message {
            self.slip(call, slip);
        }
        if let Some(slip) = call.accepted() {
            self.accepted(call, slip);
        }
        let seat = &mut self.seats[call.seat];
        if let Some(slip) = call.put_forward() {
            seat.put_forward.push((key_of(&slip), false));
        }
        seat.slate.feed(call);
        self.book(call.seat);
    }

    fn slip(&mut self, call: &Call, slip: Slip) {
        let seat = &mut self.seats[call.seat];
        match call.reply {
            Reply::Ack if slip.pays_itself() => {
                seat.marks.push((slip, false));
                self.acked.insert((call.seat, slip));
                self.met.push(ACKED);
            }
            Reply::Refused { code: 20 } => {
                if seat.marks.contains(&(slip, true)) {
                    self.met.push(SAME_AGAIN);
                }
                let mut acked = self.acked.iter();
                if acked.any(|(seat, acked)| *seat != call.seat && *acked == slip) {
                    self.met.push(TURNED_DOWN);
                }
            }
            Reply::Refused { code: 12 } if !slip.pays_itself() && seat.holds_mark(&slip) => self.met.push(ANOTHER),
            _ => {}
        }
    }

    fn accepted(&mut self, call: &Call, slip: Slip) {
        let switched = self.seats.iter().any(Seat::has_switched);
        let not = self.seats.iter().any(|seat| seat.rules == Some(Rules::First));
        let seat = &mut self.seats[call.seat];
        let by_ruling = matches!(call.message, Message::Ruling(_));
        if by_ruling && seat.put_forward.contains(&(key_of(&slip), true)) {
            self.met.push(RULED);
        }
        if slip.pays_itself() {
            let counts = !by_ruling && switched && not;
            seat.accepted.push((slip, counts));
            self.met.extend(counts.then_some(ACCEPTED));
        }
    }

    /// What the slate has booked leaves the lists.
    fn book(&mut self, seat: usize) {
        let seat = &mut self.seats[seat];
        let has_switched = seat.has_switched();
        let slate = &seat.slate;
        let booked = |slip: &Slip| slate.has_booked(slip);
        for (slip, counts) in seat.accepted.iter().filter(|(slip, _)| booked(slip)) {
            self.met.extend((*counts && has_switched).then_some(BOOKED));
            self.met
                .extend(seat.marks.contains(&(*slip, true)).then_some(IN_BETWEEN));
        }
        seat.accepted.retain(|(slip, _)| !booked(slip));
        seat.marks.retain(|(slip, _)| !booked(slip));
    }
}
