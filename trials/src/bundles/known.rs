//! The known answers of documents 01 and 02, through the functions that the static library exports; and the examples.

use crate::books::any_words::try_opening;
use crate::books::lent::{told, Lent, Sent};
use crate::books::waiting::{compared, written};
use crate::bundles::trial;
use crate::shared::checks::Checks;
use crate::shared::daybook;
use crate::shared::dice::Dice;
use crate::writer::records::page_bytes;
use reference::known::{Asked, Known, Play};
use std::path::{Path, PathBuf};

/// An opening page as a bundle's body has it: n, f, k, then 32 balances of 4 bytes; those not given are 0.
pub fn page(n: u8, f: u8, k: u8, balances: &[u32]) -> Vec<u8> {
    let mut bytes = vec![n, f, k];
    for account in 0..32 {
        bytes.extend(balances.get(account).copied().unwrap_or(0).to_le_bytes());
    }
    bytes
}

/// The known answers, from the file in the folder of examples: acks needed, sums, openings and books.
pub fn answers(checks: &mut Checks, dice: &mut Dice, folder: &str) {
    let known = match Known::read(Path::new(folder)) {
        Ok(known) => known,
        Err(what) => return checks.that(&what, false),
    };
    for acks in &known.acks_needed {
        let (place, n, f, count) = (&acks.place, acks.n, acks.f, acks.count);
        checks.same(
            &format!("{place}: acks needed"),
            daybook::acks_needed(n, f),
            count.into(),
        );
        let enough = [count - 1, count].map(|count| daybook::is_enough(n, f, count));
        checks.same(&format!("{place}: one ack fewer is not enough"), enough, [false, true]);
    }
    for sum in &known.sums {
        checks.same(&sum.place, daybook::sum(&sum.bytes), sum.sum);
    }
    for opening in &known.openings {
        try_opening(checks, dice, &opening.place, &page_bytes(&opening.page), opening.code);
    }
    for known in &known.plays {
        play(checks, dice, known);
    }
}

/// One book in lent words: each reply, and each waiting list with every byte of its buffer.
fn play(checks: &mut Checks, dice: &mut Dice, play: &Play) {
    let mut lent = Lent::default();
    checks.same(&play.place, lent.open(&page_bytes(&play.page)), 0);
    for step in &play.steps {
        match &step.asked {
            Asked::Call(message, reply) => {
                checks.same(&step.place, lent.call(&Sent::of(message)), told(reply));
            }
            Asked::Waiting(accounts) => {
                for (length, due) in [(31, Err(17)), (32, Ok(&accounts[..])), (40, Ok(&accounts[..]))] {
                    let ask = |list: &mut [u8]| lent.waiting(list);
                    let answer = compared(dice.bytes(length), ask, |list| written(due, list));
                    checks.same(&step.place, answer.map(drop), Ok(()));
                }
            }
        }
    }
}

/// Every example: its text is the one that stands beside it, and the second program's.
pub fn examples(checks: &mut Checks, folder: &str, program: Option<&str>) {
    let bundles = bundles(Path::new(folder));
    checks.that("there are more than 20 examples", bundles.len() > 20);
    for path in bundles {
        let name = format!("the example {}", path.file_stem().unwrap_or_default().to_string_lossy());
        let bytes = std::fs::read(&path).expect("a bundle that can be read");
        let (text, outcome) = trial::text_tried(&bytes, program);
        trial::count(checks, &name, &bytes, outcome);
        let beside = std::fs::read(path.with_extension("txt")).ok();
        checks.that(
            &format!("{name}: its text is the one that stands beside it"),
            beside == Some(text),
        );
    }
}

/// The files NAME.bundle of a folder, by their names; none if the folder cannot be read.
pub fn bundles(folder: &Path) -> Vec<PathBuf> {
    let files = std::fs::read_dir(folder).into_iter().flatten().flatten();
    let paths = files.map(|file| file.path());
    let mut bundles: Vec<PathBuf> = paths
        .filter(|path| path.extension() == Some("bundle".as_ref()))
        .collect();
    bundles.sort();
    bundles
}
