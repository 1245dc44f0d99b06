//! One bundle tried: `daybook` and the check held to the second program, and what is kept and printed of a difference.

use crate::shared::checks::Checks;
use crate::shared::daybook;
use reference::bundle;
use reference::daybook::compare;
use reference::written::shown;
use std::panic::{catch_unwind, AssertUnwindSafe};

/// Where the bundles go on which the two differ.
const FOLDER: &str = "target/trials";

/// The text of these bytes through the static library, and what is wrong with it or with the check of the bytes, if
/// anything. Where a program is named, it has to print the same.
pub fn text_tried(bytes: &[u8], program: Option<&str>) -> (Vec<u8>, Result<(), String>) {
    let text = match caught(|| daybook::text_of(bytes)) {
        Ok(text) => text,
        Err(what) => return (Vec::new(), Err(what)),
    };
    let outcome = caught(|| compare(bytes, &text)).and_then(|compared| compared);
    let outcome = outcome.and_then(|()| caught(|| same_check(bytes)).and_then(|same| same));
    let outcome = outcome.and_then(|()| program.map_or(Ok(()), |program| same_by_program(program, bytes, &text)));
    (text, outcome)
}

/// Whether the check is the second program's: how many entries there are, or the code and the entry of the refusal.
fn same_check(bytes: &[u8]) -> Result<(), String> {
    let due = bundle::check(bytes).map(|entries| entries as u32);
    let due = due.map_err(|fault| (fault.code.into(), fault.entry as u32));
    match daybook::check(bytes) {
        reply if reply == due => Ok(()),
        reply => Err(format!("the check gives {reply:?} and not {due:?}")),
    }
}

fn same_by_program(program: &str, bytes: &[u8], text: &[u8]) -> Result<(), String> {
    let printed = caught(|| daybook::run_program(program, bytes))?;
    if printed == text {
        return Ok(());
    }
    let of = |text: &[u8]| String::from_utf8_lossy(text).into_owned();
    Err(format!(
        "the program prints {:?} and the static library gives {:?}",
        of(&printed),
        of(text)
    ))
}

/// What it gives, or the words with which it panicked.
pub fn caught<T>(give: impl FnOnce() -> T) -> Result<T, String> {
    catch_unwind(AssertUnwindSafe(give)).map_err(|panic| {
        let words = panic.downcast_ref::<String>().cloned();
        let words = words.or_else(|| panic.downcast_ref::<&str>().map(|words| words.to_string()));
        format!("panicked: {}", words.unwrap_or_default())
    })
}

/// Counts the outcome of a trial with these bytes. If it failed, the bundle is kept under this name and shown.
pub fn count(checks: &mut Checks, name: &str, bytes: &[u8], outcome: Result<(), String>) {
    count_of(checks, name, &[(name, bytes)], outcome);
}

/// The same of a trial with several bundles, each of which has a name to be kept under.
pub fn count_of(checks: &mut Checks, name: &str, bundles: &[(&str, &[u8])], outcome: Result<(), String>) {
    let what = match outcome {
        Ok(()) => return checks.pass(),
        Err(what) => what,
    };
    let room = checks.fail(&format!("{name}: {what}"));
    for (name, bytes) in bundles {
        keep(name, bytes, room);
    }
}

/// Keeps a bundle under this name, and perhaps shows it.
fn keep(name: &str, bytes: &[u8], is_shown: bool) {
    let path = format!(
        "{FOLDER}/{}.bundle",
        name.replace(|c: char| !c.is_ascii_alphanumeric(), "-")
    );
    let kept = std::fs::create_dir_all(FOLDER).and_then(|()| std::fs::write(&path, bytes));
    if !is_shown {
        return;
    }
    match kept {
        Ok(()) => println!("The bundle is kept as {path}:"),
        Err(error) => println!("The bundle cannot be kept as {path}: {error}"),
    }
    println!("{}", caught(|| shown(bytes)).unwrap_or_else(|what| what));
}
