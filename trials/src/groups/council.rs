//! The council: it sees every P that an honest seat printed, and rules between rounds.

use super::breach::Breach;
use super::record::{key_of, Key, Record};
use crate::shared::dice::Dice;
use reference::book::{Message, Slip};
use std::collections::{BTreeMap, HashMap, HashSet};

/// How long a council waits before it rules on a number.
#[derive(Clone, Copy, PartialEq, Eq, Debug)]
pub enum Wait {
    /// As before request 5: for one seat.
    ForOne,
    /// Until so many seats have put something forward, which are n - f.
    ForMost(usize),
    /// The same, but after so many rounds it rules on fewer. A group needs it whose seats do not all have the newest
    /// rules: one that has accepted under earlier ones puts nothing forward any more, so n - f may never be met.
    /// Document 01's premise asks for one.
    ForMostAWhile(usize, u64),
}

/// What was put forward for an account and number.
#[derive(Clone, Default)]
struct Case {
    /// Each seat's slip.
    slips: BTreeMap<usize, Slip>,
    /// Whether one of them came late.
    late: bool,
    /// Rounds since the first.
    rounds: u64,
}

impl Case {
    /// The slips, each once.
    fn different(&self) -> Vec<Slip> {
        let mut different = Vec::new();
        for slip in self.slips.values() {
            if !different.contains(slip) {
                different.push(*slip);
            }
        }
        different
    }

    fn is_ready(&self, wait: Wait) -> bool {
        match wait {
            Wait::ForOne => true,
            Wait::ForMost(seats) => self.slips.len() >= seats,
            Wait::ForMostAWhile(seats, rounds) => self.slips.len() >= seats || self.rounds > rounds,
        }
    }
}

pub struct Council {
    wait: Wait,
    cases: BTreeMap<Key, Case>,
    rulings: BTreeMap<Key, Slip>,
    /// Rulings made for the only slip put forward, for one of several, and for one that nobody put forward.
    pub only: u64,
    pub several: u64,
    pub nobody: u64,
    /// Rulings of a council that waits, once n - f seats had put forward, and those with a late P among them.
    pub on_most: u64,
    pub with_late: u64,
    /// Rulings of one that waits for a while, once they had and on fewer.
    pub mixed_on_most: u64,
    pub mixed_on_fewer: u64,
}

impl Council {
    pub fn new(wait: Wait) -> Council {
        Council {
            wait,
            cases: BTreeMap::new(),
            rulings: BTreeMap::new(),
            only: 0,
            several: 0,
            nobody: 0,
            on_most: 0,
            with_late: 0,
            mixed_on_most: 0,
            mixed_on_fewer: 0,
        }
    }

    /// Notes a slip that a seat put forward, perhaps late.
    pub fn see(&mut self, seat: usize, slip: Slip, late: bool) {
        let case = self.cases.entry(key_of(&slip)).or_default();
        case.slips.entry(seat).or_insert(slip);
        case.late |= late;
    }

    /// Rules on some of what is not yet ruled. `other` gives a slip that conflicts with the given one.
    pub fn rule(&mut self, breach: Option<Breach>, other: impl Fn(&Slip, &mut Dice) -> Slip, dice: &mut Dice) {
        for key in self.open() {
            let case = self.cases.get_mut(&key).expect("an open case");
            case.rounds += 1;
            let slips = case.different();
            let waits_for_second = breach == Some(Breach::TwoRulings) && slips.len() == 1;
            if !case.is_ready(self.wait) || waits_for_second || !dice.once_in(3) {
                continue;
            }
            let (seats, late) = (case.slips.len(), case.late);
            self.count(seats, late);
            let (ruling, counter) = match (slips.len(), breach) {
                (1, Some(Breach::OtherRuling)) => (other(&slips[0], dice), &mut self.only),
                (1, _) => (slips[0], &mut self.only),
                _ if dice.once_in(3) => (unlike_all(&slips, &other, dice), &mut self.nobody),
                _ => (*dice.pick(&slips), &mut self.several),
            };
            *counter += 1;
            self.rulings.insert(key, ruling);
        }
    }

    /// Counts a ruling on what so many seats put forward, perhaps late.
    fn count(&mut self, seats: usize, late: bool) {
        match self.wait {
            Wait::ForMost(most) if seats >= most => {
                self.on_most += 1;
                self.with_late += u64::from(late);
            }
            Wait::ForMostAWhile(most, _) if seats >= most => self.mixed_on_most += 1,
            Wait::ForMostAWhile(..) => self.mixed_on_fewer += 1,
            Wait::ForOne | Wait::ForMost(_) => {}
        }
    }

    /// What was put forward and is not yet ruled.
    fn open(&self) -> Vec<Key> {
        let keys = self.cases.keys();
        keys.filter(|key| !self.rulings.contains_key(key)).copied().collect()
    }

    /// The open numbers for which this seat has put nothing forward; none if the council does not wait.
    pub fn lacking(&self, seat: usize) -> Vec<Key> {
        if self.wait == Wait::ForOne {
            return Vec::new();
        }
        let mut open = self.open();
        open.retain(|key| !self.has_heard(seat, *key));
        open
    }

    /// Whether this seat has put something forward for the number.
    pub fn has_heard(&self, seat: usize, key: Key) -> bool {
        let case = self.cases.get(&key);
        case.map_or(false, |case| case.slips.contains_key(&seat))
    }

    /// Breaks a premise: a ruling although nothing was put forward.
    pub fn rule_early(&mut self, slip: Slip) {
        if !self.cases.contains_key(&key_of(&slip)) {
            self.rulings.entry(key_of(&slip)).or_insert(slip);
        }
    }

    /// The ruling that a seat is sent for an account and number, if there is one.
    pub fn ruling(&self, key: Key, breach: Option<Breach>, dice: &mut Dice) -> Option<Slip> {
        let ruling = *self.rulings.get(&key)?;
        let slips = self.cases.get(&key).map(Case::different).unwrap_or_default();
        // Breaks a premise: a seat is sent any of those put forward.
        if breach == Some(Breach::TwoRulings) && slips.len() > 1 {
            return Some(*dice.pick(&slips));
        }
        Some(ruling)
    }

    /// All that is ruled.
    pub fn ruled(&self) -> Vec<Key> {
        self.rulings.keys().copied().collect()
    }
}

/// The rulings that reached a seat of a recorded run before n - f seats had put something forward, if its council has
/// to wait for them.
pub fn faults(record: &Record) -> Vec<String> {
    let most = match record.wait {
        Wait::ForMost(_) => usize::from(record.pages[0].n - record.pages[0].f),
        Wait::ForOne | Wait::ForMostAWhile(..) => return Vec::new(),
    };
    let mut seats: HashMap<Key, HashSet<usize>> = HashMap::new();
    let mut faults = Vec::new();
    for call in record.calls() {
        if let Some(slip) = call.put_forward() {
            seats.entry(key_of(&slip)).or_default().insert(call.seat);
        }
        if let Message::Ruling(slip) = call.message {
            let heard = seats.get(&key_of(&slip)).map_or(0, HashSet::len);
            let what = || format!("a ruling for {slip} once {heard} seats had put something forward, of {most}");
            faults.extend((heard < most).then(what));
        }
    }
    faults
}

/// A slip with that account and number that is none of these.
fn unlike_all(slips: &[Slip], other: impl Fn(&Slip, &mut Dice) -> Slip, dice: &mut Dice) -> Slip {
    loop {
        let slip = other(&slips[0], dice);
        if !slips.contains(&slip) {
            return slip;
        }
    }
}
