//! A seat that keeps its book on disk and is killed at any place of its work, again and again. Three things are claimed
//! of what it sends over its whole life: no ack that was sent is ever contradicted; after each kill it goes on with the
//! book of the messages up to the last one that was saved; and each reply that was sent is the second program's for its
//! book.

mod cheat;
mod life;
mod network;
pub mod seat;
pub mod steps;

use crate::shared::checks::Checks;
use crate::shared::dice::Dice;
use crate::shared::seen::Seen;
use life::{Claim, Fault, Life};
use network::Network;
use std::path::PathBuf;
use steps::{Habit, Place};

/// So many lives of a seat that saves before it sends, and of each that does not work as it has to.
const LIVES: u64 = 200;
const WRONG_LIVES: u64 = 24;

/// The lives of seats that work as they have to, and of those that do not: what is claimed must fail of these.
pub fn lives(checks: &mut Checks, program: &str, seed: u64) -> Result<(), String> {
    let folder = Folder::new()?;
    let network = |habit| Network::new(program, &folder.path, habit);
    checks.part("seats that save, then send");
    println!(
        "{LIVES} seats are killed {} times each, and most of them once more as they open",
        life::KILLS
    );
    let mut seen = Seen::default();
    for index in 0..LIVES {
        let lived = one_life(network(Habit::SaveThenSend), seed, index, &mut seen);
        let told = lived.map_err(|fault| fault.to_string());
        checks.same(&format!("life {index} of seed {seed}"), told, Ok(()));
    }
    seen.table(checks, Place::OF_SAVES.iter().map(|place| place.first_row()));
    seen.table(checks, Place::ALL.iter().map(|place| place.row()).chain(life::ROWS));
    checks.part("seats that do not work as they have to");
    for (habit, claim) in [
        (Habit::SendThenSave, Claim::AcksStand),
        (Habit::WriteOver, Claim::GoesOn),
    ] {
        let lives = (0..WRONG_LIVES).map(|index| one_life(network(habit), seed, index, &mut Seen::default()));
        must_fail(checks, habit, claim, lives.filter_map(Result::err).collect());
    }
    Ok(())
}

fn one_life(mut network: Network, seed: u64, index: u64, seen: &mut Seen) -> Result<(), Fault> {
    let mut dice = Dice::of(seed, index);
    Life::open(&mut dice, &mut network, seen)?.live()
}

/// Seats of this habit have to fail by this claim, and by no other.
fn must_fail(checks: &mut Checks, habit: Habit, claim: Claim, faults: Vec<Fault>) {
    let (by, others): (Vec<&Fault>, Vec<&Fault>) = faults.iter().partition(|fault| fault.claim == claim);
    println!("{}: {} of {WRONG_LIVES} lives fail", habit.name(), by.len());
    by.first()
        .into_iter()
        .for_each(|fault| println!("  the first: {fault}"));
    let what = format!("{}: no life fails by `{}`", habit.name(), claim.name());
    checks.that(&what, !by.is_empty());
    let other = others.first().map(|fault| fault.to_string());
    checks.same(&format!("{}: fails by another claim", habit.name()), other, None);
}

/// A folder of this process, which goes when the trial ends.
struct Folder {
    path: PathBuf,
}

impl Folder {
    fn new() -> Result<Folder, String> {
        let path = std::env::temp_dir().join(format!("crashes-{}", std::process::id()));
        let wrong = |error| {
            format!(
                "{}: {error}; the folder for temporary files has to be writable",
                path.display()
            )
        };
        std::fs::create_dir_all(&path).map_err(wrong)?;
        Ok(Folder { path })
    }
}

impl Drop for Folder {
    fn drop(&mut self) {
        let _ = std::fs::remove_dir_all(&self.path);
    }
}
