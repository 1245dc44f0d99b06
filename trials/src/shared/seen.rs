//! Rows that have to occur, and how often each was seen.

use crate::shared::checks::Checks;
use std::collections::BTreeMap;

#[derive(Default)]
pub struct Seen {
    times: BTreeMap<String, u64>,
}

impl Seen {
    pub fn add(&mut self, row: &str) {
        *self.times.entry(row.to_string()).or_insert(0) += 1;
    }

    /// One check, which names those of these rows that were never seen. Prints how often each was seen at least.
    pub fn each(&self, checks: &mut Checks, what: &str, rows: impl Iterator<Item = String>) {
        let (mut least, mut never) = (u64::MAX, Vec::new());
        for row in rows {
            let times = self.times(&row);
            least = least.min(times);
            if times == 0 {
                never.push(row);
            }
        }
        println!("{what:35} {least:>9}");
        checks.that(&format!("never seen: {}", never.join(", ")), never.is_empty());
    }

    fn times(&self, row: &str) -> u64 {
        self.times.get(row).copied().unwrap_or(0)
    }

    /// Prints how often each of these rows was seen. Each is a check, which fails if it was never seen.
    pub fn table<R: AsRef<str>>(&self, checks: &mut Checks, rows: impl IntoIterator<Item = R>) {
        for row in rows {
            let row = row.as_ref();
            let times = self.times(row);
            println!("{row:35} {times:>9}");
            checks.that(&format!("never seen: {row}"), times > 0);
        }
    }
}
