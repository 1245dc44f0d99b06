//! Seats that keep their books on disk and are killed at any place of their work:
//!
//!     crashes --seat PATH [--seed N]
//!
//! with the program `seat`. The last line is `N passed, M failed`, and the status is 1 if one failed.

use std::process::ExitCode;
use trials::crashes;
use trials::shared::checks::Checks;
use trials::shared::dice;

fn main() -> ExitCode {
    let arguments: Vec<String> = std::env::args().skip(1).collect();
    let words: Vec<&str> = arguments.iter().map(String::as_str).collect();
    let (seat, seed) = match words[..] {
        ["--seat", seat] => (seat, Some(dice::own_seed())),
        ["--seat", seat, "--seed", seed] => (seat, seed.parse().ok()),
        _ => ("", None),
    };
    let seed = match seed {
        Some(seed) => seed,
        None => {
            eprintln!("usage: crashes --seat PATH [--seed N]");
            return ExitCode::from(2);
        }
    };
    println!("crashes: seed {seed} (the same again: crashes --seat {seat} --seed {seed})");
    let mut checks = Checks::default();
    if let Err(what) = crashes::lives(&mut checks, seat, seed) {
        checks.fail(&what);
    }
    checks.finish()
}
