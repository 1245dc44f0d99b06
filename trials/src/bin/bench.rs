//! The compiled `daybook` against the second program, in one run: instructions and time per message, their ratio, and
//! how both grow with the bundle; the writer of bundles against the second program's, in time; one call through the
//! static library, on a book that is held, against the second program's, with the time to save and load such a book;
//! and the join of two of the longest bundles, for each pair of their acks, against the second program's:
//!
//!     bench --daybook PATH --reference PATH
//!
//! Instructions are those that callgrind counts of the programs, less those of a bundle or a book with no message or of
//! no join, so that starting a program is left out. Time is that of the two libraries in this process, the best of many
//! rounds in turn. The status is 1 where the ratio of instructions of whole bundles or of the join is above the limit,
//! and the last lines say where.
//!
//!     bench --play library|second LOAD COUNT
//!     bench --join library|second LOAD COUNT
//!
//! are what callgrind counts of the calls and of the join.

use std::process::ExitCode;
use trials::bench::loads::loads;
use trials::bench::measures::MOST;
use trials::bench::{calls, joins, texts, writer};
use trials::shared::daybook::Replay;

const USAGE: &str = "usage: bench --daybook PATH --reference PATH
       bench --play library|second LOAD COUNT
       bench --join library|second LOAD COUNT";

/// All tables; says where the ratio of instructions is above the limit.
fn measure_all(programs: &[String; 2]) -> Result<Vec<String>, String> {
    let mut replay = Replay::default();
    let mut above = Vec::new();
    for load in loads() {
        above.extend(texts::measure(&load, programs, &mut replay)?);
    }
    writer::measure()?;
    let this = std::env::current_exe().map_err(|error| format!("where this program is: {error}"))?;
    let this = this.to_string_lossy();
    calls::measure(&this)?;
    above.extend(joins::measure(&this)?);
    Ok(above)
}

fn main() -> ExitCode {
    let arguments: Vec<String> = std::env::args().skip(1).collect();
    let outcome = match arguments.iter().map(String::as_str).collect::<Vec<_>>()[..] {
        ["--daybook", daybook, "--reference", reference] => measure_all(&[daybook.to_string(), reference.to_string()]),
        ["--play", by, load, count] => calls::play(by, load, count).map(|()| Vec::new()),
        ["--join", by, load, count] => joins::play(by, load, count).map(|()| Vec::new()),
        _ => {
            eprintln!("{USAGE}");
            return ExitCode::from(2);
        }
    };
    let above = match outcome {
        Ok(above) => above,
        Err(what) => {
            eprintln!("bench: {what}");
            return ExitCode::FAILURE;
        }
    };
    for place in &above {
        println!("more than {MOST} times the second program's instructions: {place}");
    }
    ExitCode::from(u8::from(!above.is_empty()))
}
