//! How it is measured: instructions, time, and a row of both.

use std::process::Command;
use std::time::{Duration, Instant};

/// The most instructions that may be taken, as a ratio to the second program's.
pub const MOST: f64 = 0.8;
/// How many messages the bundles have; the last is the longest bundle.
pub const SIZES: [usize; 4] = [124, 249, 499, 999];
/// Each is timed so often, and the best time counts.
const ROUNDS: usize = 60;

/// What callgrind counts of a command that reads this input.
pub fn instructions(command: &[&str], input: &[u8]) -> Result<u64, String> {
    let file = std::env::temp_dir().join(format!("bench-{}", std::process::id()));
    std::fs::write(&file, input).map_err(|error| format!("{}: {error}", file.display()))?;
    let output = Command::new("valgrind")
        .args(["--tool=callgrind", "--callgrind-out-file=/dev/null"])
        .args(command)
        .stdin(std::fs::File::open(&file).map_err(|error| format!("{}: {error}", file.display()))?)
        .output()
        .map_err(|error| format!("valgrind cannot be run: {error}"))?;
    let _ = std::fs::remove_file(&file);
    let said = String::from_utf8_lossy(&output.stderr);
    let count = said.lines().find_map(|line| line.split("Collected : ").nth(1));
    count
        .and_then(|count| count.trim().parse().ok())
        .filter(|_| output.status.success())
        .ok_or(format!("valgrind did not count {}: {said}", command.join(" ")))
}

/// The instructions of a command that does something so often as its last word says, less those where that is 0.
pub fn instructions_of(command: &[&str], times: usize) -> Result<u64, String> {
    let counted = |times: usize| instructions(&[command, &[&times.to_string()]].concat(), &[]);
    let (all, none) = (counted(times)?, counted(0)?);
    let wrong = || {
        format!(
            "{}: {all} instructions with {times} and {none} with none, which cannot be right",
            command.join(" ")
        )
    };
    all.checked_sub(none).filter(|count| *count > 0).ok_or_else(wrong)
}

/// The best time of many rounds, each on what is set up for it before, and the sum of the numbers that they return.
pub fn best<S>(set_up: impl Fn() -> S, mut round: impl FnMut(&mut S) -> usize) -> (Duration, usize) {
    let mut sum = 0;
    let times = (0..ROUNDS).map(|_| {
        let mut ready = set_up();
        let start = Instant::now();
        sum += round(&mut ready);
        start.elapsed()
    });
    (times.min().unwrap_or_default(), sum)
}

/// One row: how much of each one of so many messages or pairs takes, and how many times as much the first takes, which
/// is returned.
pub fn row(count: usize, what: &str, ours: f64, theirs: f64) -> f64 {
    let (ours, theirs) = (ours / count as f64, theirs / count as f64);
    let ratio = ours / theirs;
    println!("{count:>9}  {what:<12}  {ours:>9.1}  {theirs:>14.1}  {ratio:>6.2}");
    ratio
}
