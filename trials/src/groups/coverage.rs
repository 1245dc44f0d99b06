//! What the runs met, counted: a row that stays 0 shows that the runs prove too little.

use super::alike;
use super::council::Wait;
use super::demand3::currents_of;
use super::evidence::{self, Joins};
use super::late;
use super::plan::Course;
use super::printed::Reply;
use super::record::{Call, Event};
use super::switches;
use super::world::World;
use reference::book::Message;
use reference::rules::Rules;
use std::collections::HashMap;

/// The first rows; behind them stand those of each code, n and f.
const FIRST_ROWS: [&str; 46] = [
    "calls",
    "places looked at",
    "runs looked at after each call",
    "runs with bad seats",
    BEFORE,
    NEVER,
    IN_THE_MIDDLE,
    ALL_SORTS,
    ALL_RULES,
    TWICE,
    IDLE_SWITCHES,
    switches::ACKED,
    switches::TURNED_DOWN,
    switches::ACCEPTED,
    switches::BOOKED,
    switches::IN_BETWEEN,
    switches::SAME_AGAIN,
    switches::ANOTHER,
    switches::RULED,
    FREE,
    "conflicts made",
    "P printed on a tie",
    "P on the acks of an earlier P",
    "P on the acks of an earlier P, tied",
    "P on the acks of an earlier P, tied, with another ack at hand",
    "P on the acks of an earlier P, tied, in a run with bad seats",
    "rulings for the only slip put forward",
    "rulings for one of several put forward",
    "rulings for one that nobody put forward",
    WAITING_COUNCILS,
    MIXED_COUNCILS,
    "rulings once n - f seats had put something forward",
    "rulings once they had, with a late P among it",
    "rulings once they had, in a mixed group",
    "rulings on fewer, in a mixed group and after a while",
    "slips accepted by acks",
    "slips accepted by a ruling",
    "K 0",
    "K 1",
    "K 2",
    "K 3 or more",
    "messages lost",
    "messages repeated",
    "messages reordered",
    "runs that end with different counts at two honest seats",
    "runs that end with equal counts, not all 0, at two honest seats",
];
const BEFORE: &str = "runs with seats that switched before";
const NEVER: &str = "runs with seats that do not switch";
const IN_THE_MIDDLE: &str = "runs with seats that switch in the middle";
const ALL_SORTS: &str = "runs with seats of all three sorts";
const ALL_RULES: &str = "runs with seats that start under each of the three sets of rules";
const TWICE: &str = "seats that switch from the first rules to the newest in a run";
const IDLE_SWITCHES: &str = "switches of seats that had the newest rules";
const WAITING_COUNCILS: &str = "runs whose council waits for n - f seats";
const MIXED_COUNCILS: &str = "runs whose council waits for them for a while";
const FREE: &str = "P under the first rules for another of the tied slips";
const MEETINGS: &str = "places with counts, not all 0, that another seat had before";
const MOST_BOOKED: &str = "most numbers booked at one account";

pub struct Coverage {
    rows: Vec<(String, u64)>,
}

impl Coverage {
    /// All rows, at 0.
    pub fn new() -> Coverage {
        let mut names: Vec<String> = FIRST_ROWS.iter().map(|name| name.to_string()).collect();
        names.extend(late::ROWS.map(str::to_string));
        names.extend(evidence::ROWS.map(str::to_string));
        names.extend([MEETINGS, MOST_BOOKED].map(str::to_string));
        names.extend((4..=12).chain([20]).map(|code| format!("R {code}")));
        names.extend((1..=16).map(|n| format!("runs with n {n}")));
        names.extend((0..=3).map(|f| format!("runs with f {f}")));
        Coverage {
            rows: names.into_iter().map(|name| (name, 0)).collect(),
        }
    }

    pub fn rows(&self) -> &[(String, u64)] {
        &self.rows
    }

    fn row(&mut self, name: &str) -> &mut u64 {
        let place = self
            .rows
            .iter()
            .position(|row| row.0 == name)
            .unwrap_or(self.rows.len());
        if place == self.rows.len() {
            self.rows.push((name.to_string(), 0));
        }
        &mut self.rows[place].1
    }

    fn add(&mut self, name: &str, amount: u64) {
        *self.row(name) += amount;
    }

    /// Counts what happened in a run, and what the joins of its bundles met.
    pub fn count(&mut self, world: &World, joins: &Joins) {
        let page = &world.plan.pages[0];
        self.add(&format!("runs with n {}", page.n), 1);
        self.add(&format!("runs with f {}", page.f), 1);
        self.add("runs with bad seats", world.plan.bad.contains(&true) as u64);
        self.add("runs looked at after each call", world.plan.every_call as u64);
        self.add("conflicts made", world.conflicts);
        self.add("rulings for the only slip put forward", world.council.only);
        self.add("rulings for one of several put forward", world.council.several);
        self.add("rulings for one that nobody put forward", world.council.nobody);
        self.add(
            "rulings once n - f seats had put something forward",
            world.council.on_most,
        );
        self.add("rulings once they had, with a late P among it", world.council.with_late);
        self.add("rulings once they had, in a mixed group", world.council.mixed_on_most);
        self.add(
            "rulings on fewer, in a mixed group and after a while",
            world.council.mixed_on_fewer,
        );
        self.add("messages lost", world.network.lost);
        self.add("messages repeated", world.network.repeated);
        self.add("messages reordered", world.network.reordered);
        for event in &world.record.events {
            match event {
                Event::Call(call) => self.count_call(call),
                Event::Look { .. } => self.add("places looked at", 1),
            }
        }
        self.count_sorts(world);
        for row in switches::met(&world.record).into_iter().chain(late::met(&world.record)) {
            self.add(row, 1);
        }
        for row in &joins.met {
            self.add(row, 1);
        }
        self.count_put_forwards(world);
        self.count_meetings(world);
        self.count_ends(world);
    }

    /// Counts a run by when its honest seats switch.
    fn count_sorts(&mut self, world: &World) {
        let honest: Vec<(&usize, Course)> = world
            .seats
            .keys()
            .map(|seat| (seat, world.plan.courses[*seat]))
            .collect();
        let starts = |rules: Rules| honest.iter().any(|(_, course)| course.start == rules);
        let before = starts(Rules::NEWEST);
        let never = honest
            .iter()
            .any(|(_, course)| course.start < Rules::NEWEST && course.switch.is_none());
        let in_the_middle = honest.iter().any(|(_, course)| course.switch.is_some());
        self.add(BEFORE, before as u64);
        self.add(NEVER, never as u64);
        self.add(IN_THE_MIDDLE, in_the_middle as u64);
        self.add(ALL_SORTS, (before && never && in_the_middle) as u64);
        self.add(ALL_RULES, Rules::ALL.into_iter().all(starts) as u64);
        for (seat, course) in honest {
            let twice = course.start == Rules::First && world.seats[seat].rules() == Rules::NEWEST;
            self.add(TWICE, twice as u64);
        }
        self.add(IDLE_SWITCHES, world.idle_switches);
        self.add(WAITING_COUNCILS, matches!(world.plan.wait, Wait::ForMost(_)) as u64);
        self.add(
            MIXED_COUNCILS,
            matches!(world.plan.wait, Wait::ForMostAWhile(..)) as u64,
        );
    }

    fn count_call(&mut self, call: &Call) {
        self.add("calls", 1);
        match call.reply {
            Reply::Refused { code } => self.add(&format!("R {code}"), 1),
            Reply::Accepted { booked } if booked < 3 => self.add(&format!("K {booked}"), 1),
            Reply::Accepted { .. } => self.add("K 3 or more", 1),
            _ => {}
        }
        if call.accepted().is_some() {
            let by_ruling = matches!(call.message, Message::Ruling(_));
            self.add(
                if by_ruling {
                    "slips accepted by a ruling"
                } else {
                    "slips accepted by acks"
                },
                1,
            );
        }
    }

    /// Counts each P on a tie, and each that is held to an earlier one on the same acks.
    fn count_put_forwards(&mut self, world: &World) {
        let all = alike::put_forwards(&world.record);
        let bad = world.plan.bad.contains(&true);
        for one in &all {
            self.add("P printed on a tie", one.is_tied() as u64);
            self.add(FREE, (one.rules == Rules::First && one.is_another()) as u64);
        }
        for [earlier, later] in alike::pairs(&all) {
            let tied = later.is_tied();
            let other_order = earlier.acks.last() != later.acks.last();
            for (row, met) in [
                ("P on the acks of an earlier P", true),
                ("P on the acks of an earlier P, tied", tied),
                (
                    "P on the acks of an earlier P, tied, with another ack at hand",
                    tied && other_order,
                ),
                (
                    "P on the acks of an earlier P, tied, in a run with bad seats",
                    tied && bad,
                ),
            ] {
                self.add(row, met as u64);
            }
        }
    }

    /// Counts the places at which a seat has booked just what another seat had booked at an earlier place.
    fn count_meetings(&mut self, world: &World) {
        let mut first: HashMap<Vec<u32>, usize> = HashMap::new();
        for event in &world.record.events {
            if let Event::Look { seat, closings } = event {
                let counts = currents_of(closings);
                let booked = counts.iter().any(|count| *count > 0);
                let met = *first.entry(counts).or_insert(*seat) != *seat;
                self.add(MEETINGS, (booked && met) as u64);
            }
        }
    }

    /// Compares the counts at the honest seats when the run ends.
    fn count_ends(&mut self, world: &World) {
        let ends: Vec<Vec<u32>> = world.seats.values().map(|seat| currents_of(seat.closings())).collect();
        let most = ends.iter().flatten().max().copied().unwrap_or(0) as u64;
        let before = *self.row(MOST_BOOKED);
        *self.row(MOST_BOOKED) = before.max(most);
        let different = ends.iter().any(|end| *end != ends[0]);
        self.add(
            "runs that end with different counts at two honest seats",
            different as u64,
        );
        let booked = |end: &Vec<u32>| end.iter().any(|count| *count > 0);
        let twice = |end: &Vec<u32>| ends.iter().filter(|other| *other == end).count() > 1;
        let equal = ends.iter().any(|end| booked(end) && twice(end));
        self.add(
            "runs that end with equal counts, not all 0, at two honest seats",
            equal as u64,
        );
    }
}

impl Default for Coverage {
    fn default() -> Coverage {
        Coverage::new()
    }
}
