//! The slips that homes make, sound ones and odd ones.

use super::printed::Closing;
use super::record::Key;
use crate::shared::dice::Dice;
use reference::book::{OpeningPage, Slip};

/// What was made for one account and number.
pub struct Made {
    /// A slip, or several that conflict.
    pub slips: Vec<Slip>,
    /// The slip that bad seats ack to each seat.
    pub told: Vec<Slip>,
}

fn opening_sum(page: &OpeningPage) -> u32 {
    page.balances.iter().sum()
}

/// A home's slip, with a value that mostly fits the account as it stands at some seat. Once in so many times, and if
/// there is no other recipient, the home pays itself.
pub fn new_slip(page: &OpeningPage, key: Key, closing: Closing, to_itself: u64, dice: &mut Dice) -> Slip {
    let balance = closing.balance;
    let value = match dice.below(8) {
        0..=2 => balance.max(1),
        3 if dice.once_in(3) => balance.saturating_add(1),
        4 if dice.once_in(3) => 1 + dice.below(opening_sum(page).max(1).into()) as u32,
        _ => 1 + dice.below(balance.max(1).into()) as u32,
    };
    let further = if dice.once_in(to_itself) {
        0
    } else {
        dice.within(1, u64::from(page.k.max(2)) - 1) as u8
    };
    Slip {
        account: key.0,
        number: key.1,
        value,
        recipient: (key.0 + further) % page.k,
    }
}

/// A slip that conflicts with this one.
pub fn other(page: &OpeningPage, slip: &Slip, dice: &mut Dice) -> Slip {
    loop {
        let value = match dice.below(16) {
            0 => dice.any() as u32,
            1 | 2 => dice.within(1, opening_sum(page).max(1).into()) as u32,
            _ => dice.within(1, slip.value.max(2).into()) as u32,
        };
        let other = Slip {
            value,
            recipient: dice.below(page.k.into()) as u8,
            ..*slip
        };
        if other != *slip {
            return other;
        }
    }
}

/// This slip with something wrong in it, or a conflicting one, or itself.
pub fn odd(page: &OpeningPage, slip: Slip, dice: &mut Dice) -> Slip {
    let none = page.k + dice.below(4) as u8;
    match dice.below(10) {
        0 => Slip { account: none, ..slip },
        1 => Slip {
            recipient: none,
            ..slip
        },
        2 => Slip { number: 0, ..slip },
        3 => Slip {
            number: slip.number + 1 + dice.below(3) as u32,
            ..slip
        },
        4 => Slip {
            number: slip.number - 1,
            ..slip
        },
        5 => Slip { value: 0, ..slip },
        6 => Slip {
            value: opening_sum(page).saturating_add(1),
            ..slip
        },
        7 | 8 => other(page, &slip, dice),
        _ => slip,
    }
}
