//! How often each reply and each refusal occurred, counted from what the compiled ledger, writer or join replied or
//! `daybook` printed.

use crate::books::handed;
use crate::books::waiting::Answer;
use crate::evidence;
use crate::messages::rows::Before;
use crate::messages::{late, self_payments, ties};
use crate::shared::checks::Checks;
use reference::bundle;
use std::collections::BTreeMap;

/// The classes of random bundles, each a column of the table.
pub const CLASSES: [&str; 4] = ["living", "wild", "damaged", "bytes"];

/// The words for kinds 1 to 5, and the replies that the documents allow to each.
const KINDS: [(&str, &[&str]); 5] = [
    ("request", &["C", "R 5", "R 20", "R 6", "R 7", "R 8", "R 11"]),
    ("slip", &["A", "R 5", "R 20", "R 6", "R 7", "R 8", "R 11", "R 12"]),
    (
        "ack",
        &["K", "P", "N", "R 4", "R 5", "R 6", "R 7", "R 8", "R 9", "R 10"],
    ),
    ("ruling", &["K", "R 5", "R 6", "R 7", "R 8"]),
    ("question", &["B", "R 5"]),
];

/// The other rows of every table.
const ROWS: [&[&str]; 8] = [
    &["A", "C", "K", "P", "N", "B", "R"],
    &["K 0", "K 1", "K 2", "K 3 to 31", "K 32"],
    &ties::SIZES,
    &ties::ORDERS,
    &late::ROWS,
    &["R 4", "R 5", "R 6", "R 7", "R 8", "R 9", "R 10", "R 11", "R 12", "R 20"],
    &self_payments::ROWS,
    &["none waits", "one waits", "2 to 31 wait", "32 wait", "waiting list 17"],
];

/// The rows of bundles alone.
const BUNDLE_ROWS: [&str; 13] = [
    "F 1",
    "F 2",
    "F 3",
    "F 13",
    "F 14",
    "F 15",
    "F 16",
    "F 14 at entry 0",
    "F 14 at a later one",
    "F 16 at entry 0",
    "F 16 at a later one",
    "waiting list F",
    WRITTEN_AGAIN,
];
pub const WRITTEN_AGAIN: &str = "written out again";

/// The rows of held books alone.
pub const SETTLED_LATER: &str = "settled by another's";
pub const SAVED_AND_LOADED: &str = "saved and loaded";

/// The rows of the writer of bundles: the opening pages, how many messages and their kinds, its replies, the causes of
/// 14, and each two refusals that one call meets, of which the first is due.
const WRITER_ROWS: [&[&str]; 6] = [
    &["page opens", "page refused"],
    &["0 messages", "999 messages"],
    &["request", "slip", "ack", "ruling", "question"],
    &["a length", "18", "14", "15", "19"],
    &[KIND_0, KIND_ABOVE_5, SEAT_OF_NO_ACK],
    &[
        "18 before 14",
        "18 before 15",
        "18 before 19",
        "14 before 15",
        "14 before 19",
        "15 before 19",
    ],
];
pub const KIND_0: &str = "14: kind 0";
pub const KIND_ABOVE_5: &str = "14: kind above 5";
pub const SEAT_OF_NO_ACK: &str = "14: seat of no ack";

pub struct Tallies {
    columns: &'static [&'static str],
    /// each row has to be met in one of so many first columns
    decisive: usize,
    rows: Vec<String>,
    counts: BTreeMap<String, Vec<u64>>,
}

impl Tallies {
    /// Of the random bundles: each row has to be met.
    pub fn of_bundles() -> Tallies {
        Tallies::new(&CLASSES, CLASSES.len(), &BUNDLE_ROWS)
    }

    /// Of books that are held: each row has to be met in the first column.
    pub fn of_lives(columns: &'static [&'static str]) -> Tallies {
        let more = [&[SETTLED_LATER, SAVED_AND_LOADED][..], &handed::ROWS].concat();
        Tallies::new(columns, 1, &more)
    }

    /// Of the writer: each row has to be met.
    pub fn of_writing(columns: &'static [&'static str]) -> Tallies {
        let rows = WRITER_ROWS.concat().iter().map(|row| row.to_string()).collect();
        Tallies::of_rows(columns, columns.len(), rows)
    }

    /// Of the join of two bundles: each row has to be met.
    pub fn of_joins(columns: &'static [&'static str]) -> Tallies {
        Tallies::of_rows(columns, columns.len(), evidence::rows::all())
    }

    fn new(columns: &'static [&'static str], decisive: usize, more: &[&str]) -> Tallies {
        let mut rows: Vec<String> = ROWS.concat().iter().chain(more).map(|row| row.to_string()).collect();
        for (word, replies) in KINDS {
            rows.extend(replies.iter().map(|reply| format!("{word}: {reply}")));
        }
        Tallies::of_rows(columns, decisive, rows)
    }

    fn of_rows(columns: &'static [&'static str], decisive: usize, rows: Vec<String>) -> Tallies {
        Tallies {
            columns,
            decisive,
            rows,
            counts: BTreeMap::new(),
        }
    }

    pub fn add(&mut self, column: usize, row: &str) {
        match self.counts.get_mut(row) {
            Some(counts) => counts[column] += 1,
            None => {
                self.counts.insert(row.to_string(), vec![0; self.columns.len()]);
                self.add(column, row);
            }
        }
    }

    /// Counts the lines of the text that `daybook` printed for these bytes.
    pub fn text(&mut self, class: usize, bytes: &[u8], text: &[u8]) {
        let text = String::from_utf8_lossy(text);
        let read = bundle::read(bytes);
        let (mut before, messages) =
            read.map_or((None, Vec::new()), |(page, messages)| (Before::open(&page), messages));
        for line in text.lines() {
            let words: Vec<&str> = line.split(' ').collect();
            match words[..] {
                ["F", code, entry] => self.refusal(class, code, entry),
                ["=", ..] => {}
                [entry, ref reply @ ..] => {
                    let entry: usize = entry.parse().unwrap_or(0);
                    let kind = bytes.get(2 + 8 * entry).copied().unwrap_or(0);
                    let message = messages.get(entry.wrapping_sub(1));
                    let rows = match (&mut before, message) {
                        (Some(before), Some(message)) => before.rows(message, reply),
                        _ => Vec::new(),
                    };
                    self.reply(class, kind, reply, &rows);
                }
                [] => {}
            }
        }
    }

    /// The line `F code entry`.
    fn refusal(&mut self, class: usize, code: &str, entry: &str) {
        self.add(class, &format!("F {code}"));
        if code == "14" || code == "16" {
            let place = if entry == "0" { "entry 0" } else { "a later one" };
            self.add(class, &format!("F {code} at {place}"));
        }
    }

    /// The reply to a message of this kind: letter and values, and the other rows that it belongs to.
    pub fn reply(&mut self, class: usize, kind: u8, reply: &[&str], rows: &[String]) {
        self.add(class, reply.first().unwrap_or(&"no letter"));
        rows.iter().for_each(|row| self.add(class, row));
        match reply {
            ["K", count @ ("0" | "1" | "2" | "32")] => self.add(class, &format!("K {count}")),
            ["K", ..] => self.add(class, "K 3 to 31"),
            ["R", code] => self.add(class, &format!("R {code}")),
            _ => {}
        }
        let place = usize::from(kind).wrapping_sub(1);
        let word = KINDS.get(place).map_or("no kind", |(word, _)| word);
        match reply {
            ["R", code] => self.add(class, &format!("{word}: R {code}")),
            [letter, ..] => self.add(class, &format!("{word}: {letter}")),
            [] => {}
        }
    }

    /// Counts an answer to the question for the waiting list.
    pub fn waiting(&mut self, class: usize, answer: Answer) {
        let row = match answer {
            Ok(0) => "none waits",
            Ok(1) => "one waits",
            Ok(32) => "32 wait",
            Ok(_) => "2 to 31 wait",
            Err(17) => "waiting list 17",
            Err(_) => "waiting list F",
        };
        self.add(class, row);
    }

    /// Prints the table. Each row is a check, and so is each reply that has no row: no message may get it.
    pub fn table(&self, checks: &mut Checks) {
        let line = |row: &str, all: &str, counts: Vec<String>| {
            let counts: Vec<String> = counts.iter().map(|count| format!("{count:>11}")).collect();
            println!("{row:33} {all:>9} {}", counts.join(" "));
        };
        line("", "all", self.columns.iter().map(|name| name.to_string()).collect());
        let none = vec![0; self.columns.len()];
        for row in &self.rows {
            let counts = self.counts.get(row).unwrap_or(&none);
            let all: u64 = counts.iter().sum();
            line(row, &all.to_string(), counts.iter().map(u64::to_string).collect());
            checks.that(
                &format!("never seen: {row}"),
                counts[..self.decisive].iter().any(|count| *count > 0),
            );
        }
        for row in self.counts.keys().filter(|row| !self.rows.contains(row)) {
            checks.fail(&format!("not a reply of the documents: {row}"));
        }
    }
}
