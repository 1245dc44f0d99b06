//! Random pairs of bundles, joined both ways, and the table of what was met.

use crate::bundles::trial::{self, caught};
use crate::evidence::joined::{tried, Given};
use crate::evidence::pairs::{self, SORTS};
use crate::evidence::rows;
use crate::shared::checks::Checks;
use crate::shared::dice::Dice;
use crate::shared::tallies::Tallies;
use reference::evidence::Evidence;

/// So many pairs.
const PAIRS: u64 = 10_000;
/// Their dice come from the seed with this bit changed: they share them with no other trial.
const PAIRS_BIT: u64 = 1 << 61;

pub fn random(checks: &mut Checks, seed: u64) {
    let mut tallies = Tallies::of_joins(&SORTS);
    for index in 1..=PAIRS {
        let mut dice = Dice::of(seed ^ PAIRS_BIT, index);
        let name = format!("pair {index} of seed {seed}");
        let made = caught(|| pairs::any(&mut dice));
        let (sort, given) = match made {
            Ok(made) => made,
            Err(what) => {
                checks.fail(&format!("{name} cannot be made: {what}"));
                continue;
            }
        };
        let outcome = caught(|| both_ways(&mut dice, &mut tallies, sort, &given)).and_then(|outcome| outcome);
        let names = ["first", "second"].map(|which| format!("{name}, {which}"));
        let bundles = [(&names[0][..], &given.first[..]), (&names[1], &given.second)];
        trial::count_of(checks, &name, &bundles, outcome);
    }
    tallies.table(checks);
}

/// Joined and then joined the other way round: where nothing is refused, a pair is there both ways or neither way.
fn both_ways(dice: &mut Dice, tallies: &mut Tallies, sort: usize, given: &Given) -> Result<(), String> {
    let turned = given.turned();
    let [answer, back] = [
        tried(dice, given)?,
        tried(dice, &turned).map_err(|what| format!("turned round: {what}"))?,
    ];
    for (given, answer) in [(given, &answer), (&turned, &back)] {
        for row in rows::met(given, answer)? {
            tallies.add(sort, &row);
        }
    }
    match (answer, back) {
        (
            Evidence::Found { entries, .. },
            Evidence::Found {
                entries: [one, other], ..
            },
        ) => {
            if entries != [other, one] {
                tallies.add(sort, rows::TURNED);
            }
            Ok(())
        }
        (Evidence::None, Evidence::None) | (Evidence::Refused { .. }, Evidence::Refused { .. }) => Ok(()),
        (answer, back) => Err(format!("{answer:?}, and turned round {back:?}")),
    }
}
