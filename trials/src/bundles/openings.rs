//! Opening pages: those that open, and those at and beyond each limit.

use crate::shared::dice::Dice;
use reference::book::OpeningPage;

/// The limit of the opening sum.
const MAX: u32 = u32::MAX;

/// A page that opens, with every n, f and k that is allowed.
pub fn sound(dice: &mut Dice) -> OpeningPage {
    let n = if dice.once_in(2) {
        *dice.pick(&[1, 2, 3, 4, 6, 7, 8, 11])
    } else {
        dice.within(1, 16) as u8
    };
    let f = dice.within(0, u64::from(most_faults(n))) as u8;
    let k = match dice.below(8) {
        0 => 1,
        1 => 32,
        2 | 3 => dice.within(1, 32),
        _ => dice.within(2, 5),
    };
    OpeningPage {
        n,
        f,
        k: k as u8,
        balances: balances(dice, k as usize),
    }
}

/// The most seats that may misbehave among n, which is not 0.
fn most_faults(n: u8) -> u8 {
    (n - 1) / 5
}

/// Balances of k accounts whose sum is allowed: small ones, huge ones, and few that are not 0.
fn balances(dice: &mut Dice, k: usize) -> [u32; 32] {
    let mut balances = [0; 32];
    match dice.below(8) {
        0 | 1 => fill(&mut balances[..k], || dice.portions(0, 12)),
        2 => fill(&mut balances[..k], || dice.portions(0, 2)),
        3 => fill(&mut balances[..k], || dice.portions(0, MAX / k as u32)),
        4 => balances[dice.place(k)] = dice.portions(0, 100),
        5 => balances[dice.place(k)] = MAX,
        _ => shares_of_all(dice, &mut balances[..k]),
    }
    balances
}

fn fill(balances: &mut [u32], mut next: impl FnMut() -> u32) {
    for balance in balances {
        *balance = next();
    }
}

/// The sum is exactly the limit: each account takes a share of what is left, and one takes the rest.
fn shares_of_all(dice: &mut Dice, balances: &mut [u32]) {
    let mut left = MAX;
    for balance in balances.iter_mut() {
        *balance = dice.portions(0, left / 2);
        left -= *balance;
    }
    let last = balances.len() - 1;
    balances[last] += left;
    dice.shuffle(balances);
}

/// A page with up to two fields at or beyond a limit, so that it is refused in one way or in two, or just not.
pub fn wild(dice: &mut Dice) -> OpeningPage {
    let mut page = sound(dice);
    for _ in 0..dice.below(3) {
        match dice.below(6) {
            0 => page.n = *dice.pick(&[0, 1, 2, 5, 6, 10, 11, 15, 16, 17, 18, 128, 255]),
            1 => page.f = odd_faults(dice, page.n),
            2 => page.k = odd_accounts(dice, page.k),
            3 => balance_behind(dice, &mut page),
            4 => sum_at_limit(dice, &mut page),
            _ => fill(&mut page.balances, || *dice.pick(&[0, 0, 0, 1, 1 << 27, 1 << 31, MAX])),
        }
    }
    page
}

/// The most that n allows, one more, and numbers whose fivefold no longer fits a byte.
fn odd_faults(dice: &mut Dice, n: u8) -> u8 {
    let most = most_faults(n.max(1));
    *dice.pick(&[most, most, most + 1, most + 1, 0, 1, 2, 3, 4, 51, 52, 103, 255])
}

fn odd_accounts(dice: &mut Dice, k: u8) -> u8 {
    *dice.pick(&[0, 1, 31, 32, 33, 34, 64, 255, k.wrapping_sub(1), k.wrapping_add(1)])
}

/// A balance that is not 0 stands behind the k-th: just behind it, in the last place, or anywhere.
fn balance_behind(dice: &mut Dice, page: &mut OpeningPage) {
    if page.k < 32 {
        let any = dice.within(u64::from(page.k), 31) as u8;
        let place = *dice.pick(&[page.k, 31, any]);
        page.balances[usize::from(place)] = *dice.pick(&[1, 256, 1 << 16, 1 << 24, MAX]);
    }
}

/// The sum is exactly the limit, or one above it.
fn sum_at_limit(dice: &mut Dice, page: &mut OpeningPage) {
    let k = usize::from(page.k.clamp(1, 32));
    shares_of_all(dice, &mut page.balances[..k]);
    if dice.once_in(2) {
        let place = dice.place(k);
        page.balances[place] = page.balances[place].saturating_add(1);
    }
}
