//! The counting of checks.

use std::fmt::Debug;
use std::process::ExitCode;

/// So many failures of one part are printed; the others are only counted.
const MOST_SHOWN: u64 = 5;

/// How many checks passed and failed so far. They come in parts, which have names.
#[derive(Default)]
pub struct Checks {
    passed: u64,
    failed: u64,
    part: String,
    passed_before: u64,
    failed_before: u64,
}

impl Checks {
    /// A part of this name begins; the one before it ends, with a line that counts its checks.
    pub fn part(&mut self, name: &str) {
        self.end_part();
        self.part = name.to_string();
        self.passed_before = self.passed;
        self.failed_before = self.failed;
    }

    fn end_part(&self) {
        let (passed, failed) = (self.passed - self.passed_before, self.failed - self.failed_before);
        if passed + failed > 0 {
            println!("{}: {} checks passed, {} failed", self.part, passed, failed);
        }
    }

    pub fn pass(&mut self) {
        self.passed += 1;
    }

    /// A check has failed. Says whether there is still room to print more about it.
    pub fn fail(&mut self, what: &str) -> bool {
        self.failed += 1;
        let room = self.failed - self.failed_before <= MOST_SHOWN;
        if room {
            println!("FAILED: {}: {}", self.part, what);
        }
        room
    }

    pub fn that(&mut self, what: &str, holds: bool) {
        if holds {
            self.pass();
        } else {
            self.fail(what);
        }
    }

    pub fn same<T: PartialEq + Debug>(&mut self, what: &str, is: T, wanted: T) {
        if is == wanted {
            self.pass();
        } else {
            self.fail(&format!("{what}: {is:?} and not {wanted:?}"));
        }
    }

    /// The very last line, and the status of the whole.
    pub fn finish(self) -> ExitCode {
        self.end_part();
        println!("{} passed, {} failed", self.passed, self.failed);
        ExitCode::from(u8::from(self.failed > 0))
    }
}
