//! The compiled `daybook` against the second program, on whole bundles.

use super::loads::Load;
use super::measures::{best, instructions, row, MOST, SIZES};
use crate::shared::daybook::Replay;

/// Prints the rows of a load; says where the ratio of instructions is above the limit.
pub fn measure(load: &Load, programs: &[String; 2], replay: &mut Replay) -> Result<Vec<String>, String> {
    println!("{}:", load.name);
    println!(" messages  per message     daybook  second program   ratio");
    let [daybook, reference] = programs;
    let none = load.bundle(0);
    let start = [instructions(&[daybook], &none)?, instructions(&[reference], &none)?];
    let mut above = Vec::new();
    for messages in SIZES {
        let bundle = load.bundle(messages);
        let counts = [instructions(&[daybook], &bundle)?, instructions(&[reference], &bundle)?];
        let ratio = row(
            messages,
            "instructions",
            (counts[0] - start[0]) as f64,
            (counts[1] - start[1]) as f64,
        );
        if ratio > MOST {
            above.push(format!("{}, {messages} messages: {ratio:.2}", load.name));
        }
        let (ours, our_bytes) = best(|| (), |()| replay.text(&bundle).len());
        let (theirs, their_bytes) = best(|| (), |()| reference::daybook::printed(&bundle).len());
        if our_bytes != their_bytes {
            return Err(format!("{}: the two texts differ in length", load.name));
        }
        row(
            messages,
            "nanoseconds",
            ours.as_nanos() as f64,
            theirs.as_nanos() as f64,
        );
    }
    Ok(above)
}
