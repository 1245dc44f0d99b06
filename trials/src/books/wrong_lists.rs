//! Wrong answers to the question for a waiting list, each of which the comparison has to notice.

use crate::books::waiting::{compared, number, written};
use crate::bundles::edges;
use crate::shared::checks::Checks;
use crate::shared::dice::Dice;
use reference::book::Book;

/// What is wrong with an answer, the number that is returned, and the buffer as it is left.
type Given = (&'static str, u32, Vec<u8>);

const RIGHT: &str = "the right answer";

/// Two, three and 32 accounts wait, and the buffer holds anything: the right answer passes, each wrong one is noticed.
pub fn all_noticed(checks: &mut Checks, dice: &mut Dice) {
    let all: Vec<u8> = (0..32).collect();
    for accounts in [&[5, 30][..], &[0, 17, 31], &all] {
        let book = book_of(accounts);
        let (long, short) = (dice.bytes(40), dice.bytes(31));
        let lists = lists(accounts, &long).into_iter().map(|given| (&long, given));
        let refusals = refusals(accounts, &short).into_iter().map(|given| (&short, given));
        for (before, (what, reply, after)) in lists.chain(refusals) {
            let give = |list: &mut [u8]| {
                list.copy_from_slice(&after);
                reply
            };
            let passes = compared(before.clone(), give, |list| book.waiting_list(list)).is_ok();
            let outcome = if passes { "passes" } else { "does not pass" };
            let told = format!("{what}, where {accounts:?} wait, {outcome}");
            checks.that(&told, passes == (what == RIGHT));
        }
    }
}

/// The second program's book in which these accounts wait.
fn book_of(accounts: &[u8]) -> Book {
    let (page, messages) = edges::waits(accounts);
    let mut book = Book::open(&page).expect("a page that opens");
    for message in &messages {
        book.call(message);
    }
    book
}

/// Answers where these accounts are to be listed, in a buffer that holds this before.
fn lists(accounts: &[u8], before: &[u8]) -> Vec<Given> {
    let listed = |what, list: &[u8]| {
        let mut after = before.to_vec();
        (what, number(written(Ok(list), &mut after)), after)
    };
    let falling: Vec<u8> = accounts.iter().rev().copied().collect();
    let (_, count, right) = listed(RIGHT, accounts);
    let mut given = vec![
        listed(RIGHT, accounts),
        listed("highest first", &falling),
        ("a count one more", count + 1, right.clone()),
        ("a count one fewer", count - 1, right.clone()),
        ("a number of 17 bits", count + 65_536, right.clone()),
        ("17 where a list is due", number(Err(17)), before.to_vec()),
        ("17 and the list", number(Err(17)) + count, right.clone()),
    ];
    for place in 0..accounts.len() {
        let wrong = wrong_at(accounts, place);
        given.extend(wrong.iter().map(|(what, list)| listed(what, list)));
    }
    let behind = accounts.len()..before.len();
    given.extend(behind.map(|place| ("a byte behind changed", count, changed(&right, place))));
    given
}

/// Lists that are wrong at this place.
fn wrong_at(accounts: &[u8], place: usize) -> [(&'static str, Vec<u8>); 5] {
    let (account, beside) = (accounts[place], if place == 0 { 1 } else { place - 1 });
    let free = (0..=32).find(|account| !accounts.contains(account));
    let in_its_place = |put: &[u8]| [&accounts[..place], put, &accounts[place + 1..]].concat();
    let mut exchanged = accounts.to_vec();
    exchanged.swap(place, beside);
    [
        ("two neighbours exchanged", exchanged),
        (
            "an account twice, in place of another",
            in_its_place(&[accounts[beside]]),
        ),
        ("an account twice, as one more", in_its_place(&[account, account])),
        ("an account left out", in_its_place(&[])),
        (
            "an account that does not wait",
            in_its_place(&[free.expect("32 is none")]),
        ),
    ]
}

/// Answers where 17 is due.
fn refusals(accounts: &[u8], before: &[u8]) -> Vec<Given> {
    let code = number(Err(17));
    // as far as it fits
    let mut list = accounts.to_vec();
    list.extend(before.iter().skip(list.len()));
    list.truncate(before.len());
    let mut given = vec![
        (RIGHT, code, before.to_vec()),
        ("16 where 17 is due", number(Err(16)), before.to_vec()),
        ("a list where 17 is due", accounts.len() as u32, list),
    ];
    let places = 0..before.len();
    given.extend(places.map(|place| ("a refusal that writes", code, changed(before, place))));
    given
}

fn changed(buffer: &[u8], place: usize) -> Vec<u8> {
    let mut changed = buffer.to_vec();
    changed[place] ^= 1;
    changed
}
