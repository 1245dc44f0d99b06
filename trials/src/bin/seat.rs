//! A seat that keeps its book in a file; `crashes` starts it, hands it messages and kills it:
//!
//!     seat FILE HABIT
//!
//! It says on standard output where it is in its work and what it replies, in bytes: see `trials::crashes::steps`.

use std::path::Path;
use std::process::ExitCode;
use trials::crashes::seat;
use trials::crashes::steps::Habit;

fn main() -> ExitCode {
    let arguments: Vec<String> = std::env::args().skip(1).collect();
    let known = match &arguments[..] {
        [file, habit] => Habit::of(habit).map(|habit| (Path::new(file), habit)),
        _ => None,
    };
    let (file, habit) = match known {
        Some(known) => known,
        None => {
            eprintln!("usage: seat FILE save-then-send|send-then-save|write-over");
            return ExitCode::from(2);
        }
    };
    match seat::run(file, habit) {
        Ok(()) => ExitCode::SUCCESS,
        Err(what) => {
            eprintln!("seat: {what}");
            ExitCode::FAILURE
        }
    }
}
