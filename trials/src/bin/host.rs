//! Calls each function that the static library exports, and holds it to the known answers of documents 01 and 02:
//!
//!     host DIR
//!
//! with the folder of examples. The last line is `N passed, M failed`, and the status is 1 if one failed.

use reference::book::{Book, Message, OpeningPage, Slip};
use reference::bundle::write;
use reference::rules::Rules;
use std::process::ExitCode;
use trials::books::any_words::try_opening;
use trials::books::lent::{Lent, Sent};
use trials::books::waiting::{compared, written};
use trials::books::{handed, saved, taken_over};
use trials::bundles::edges::{wait_of, waits};
use trials::bundles::known::{self, page};
use trials::evidence;
use trials::shared::checks::Checks;
use trials::shared::daybook::{acks_needed, check, is_enough, text_of, waiting};
use trials::shared::dice::Dice;
use trials::writer::records::page_bytes;
use trials::writer::writing;

/// The two functions on acks against each other and against document 01: twice the count exceeds n + 3f.
fn acks(checks: &mut Checks) {
    for n in 1..=16 {
        for f in 0..=3 {
            for count in 0..=16 {
                let what = format!("whether {count} acks are enough at n {n}, f {f}");
                checks.same(&what, is_enough(n, f, count), 2 * count > n + 3 * f);
                checks.same(&what, is_enough(n, f, count), u16::from(count) >= acks_needed(n, f));
            }
        }
    }
}

fn openings(checks: &mut Checks, dice: &mut Dice) {
    let mut code = |code, what, page: &[u8]| try_opening(checks, dice, what, page, code);
    let max = u32::MAX;
    let mut last = [0; 32];
    last[31] = 1 << 24;
    let good = page(6, 1, 3, &[100, 200, 300]);
    let refused = page(17, 0, 1, &[100]);
    let longer = |page: &[u8], more| [page, &vec![0; more][..]].concat();

    code(0, "a good page", &good);
    code(0, "32 accounts", &page(16, 3, 32, &[1; 32]));
    code(1, "n 0", &page(0, 0, 1, &[100]));
    code(1, "n 5 with f 1", &page(5, 1, 1, &[100]));
    code(1, "n 17 with f 0", &refused);
    code(2, "k 0", &page(6, 1, 0, &[]));
    code(2, "k 33", &page(6, 1, 33, &[]));
    code(2, "a balance behind k", &page(6, 1, 2, &[100, 200, 300]));
    code(2, "the last behind k", &page(6, 1, 31, &last));
    code(0, "the last within k", &page(6, 1, 32, &last));
    code(3, "a sum of 4,294,967,296", &page(6, 1, 2, &[max, 1]));
    code(0, "a sum of 4,294,967,295", &page(6, 1, 2, &[max - 1, 1]));
    // 15 before 1, 2 and 3: a missing byte is not read as 0, and what is behind is not left unread
    code(15, "no bytes", &[]);
    code(15, "n and f alone", &[6, 1]);
    code(15, "n, f and k alone", &[6, 1, 3]);
    code(15, "a good page without its last byte", &good[..130]);
    code(15, "a good page with a byte behind it", &longer(&good, 1));
    code(15, "a good page with 256 bytes behind it", &longer(&good, 256));
    code(15, "a good page with 65,536 bytes behind it", &longer(&good, 65_536));
    code(15, "a refused page without its last byte", &refused[..130]);
    code(15, "a refused page with a byte behind it", &longer(&refused, 1));
}

fn example(folder: &str, name: &str) -> Vec<u8> {
    std::fs::read(format!("{folder}/{name}.bundle")).unwrap_or_else(|error| panic!("{name}.bundle: {error}"))
}

/// Input longer than a bundle can be gives 13, 14 or 15, and the same text as its first 18,124 bytes.
fn long_inputs(checks: &mut Checks, folder: &str) {
    let longest = example(folder, "longest");
    let inputs = [
        (vec![0; 18_124], "F 13 0\n"),
        (vec![255; 1_000_000], "F 13 0\n"),
        (vec![1; 40_000], "F 14 0\n"),
        ([&longest[..], &[0]].concat(), "F 15 0\n"),
        ([&longest[..], &longest[..]].concat(), "F 15 0\n"),
    ];
    for (bytes, wanted) in inputs {
        let what = format!("an input of {} bytes", bytes.len());
        checks.same(&what, text_of(&bytes), wanted.as_bytes().to_vec());
        checks.same(
            "the same from its front",
            text_of(&bytes[..18_124]),
            wanted.as_bytes().to_vec(),
        );
    }
}

/// The check of the examples, by hand: how many entries, or the code and the entry.
fn bundle_checks(checks: &mut Checks, folder: &str) {
    let answers = [
        ("whole_output", Ok(8)),
        ("council", Ok(16)),
        ("chain", Ok(33)),
        ("longest", Ok(1_000)),
        // the opening is none of its matters
        ("refused_opening_5_1", Ok(1)),
        ("empty", Err((13, 0))),
        ("no_entries", Err((13, 0))),
        ("wrong_kind", Err((14, 1))),
        ("wrong_seat", Err((14, 1))),
        ("wrong_start", Err((14, 1))),
        ("byte_missing", Err((15, 0))),
        ("one_byte_too_long", Err((15, 0))),
        ("wrong_sum", Err((16, 1))),
    ];
    for (name, due) in answers {
        checks.same(&format!("the check of {name}"), check(&example(folder, name)), due);
    }
    // a wrong sum in the last of 1,000 entries
    let mut longest = example(folder, "longest");
    *longest.last_mut().expect("a byte") ^= 1;
    checks.same(
        "the check of longest, its last byte changed",
        check(&longest),
        Err((16, 999)),
    );
    let twice = [&longest[..], &longest[..]].concat();
    checks.same("the check of 36,246 bytes", check(&twice), Err((15, 0)));
    checks.same(
        "the check of a million bytes of 255",
        check(&vec![255; 1_000_000]),
        Err((13, 0)),
    );
}

/// A bundle with one byte changed is refused: m and each start by the bodies' lengths, the bodies by their sums. Only
/// the kind and the seat of an entry may be changed to others that are as good.
fn damaged(checks: &mut Checks, folder: &str) {
    let bundle = example(folder, "whole_output");
    let contents = 2..2 + 8 * usize::from(bundle[0]);
    let may_be_as_good = |place: &usize| contents.contains(place) && (place - 2) % 8 < 2;
    for place in (0..bundle.len()).filter(|place| !may_be_as_good(place)) {
        for change in [1, 128, 255] {
            let mut bytes = bundle.clone();
            bytes[place] ^= change;
            let text = text_of(&bytes);
            let refused = [13, 14, 15, 16]
                .iter()
                .any(|code| text.starts_with(format!("F {code} ").as_bytes()));
            checks.that(
                &format!("the bundle with byte {place} changed by {change} is refused"),
                refused,
            );
        }
    }
}

/// The waiting list after a bundle: the accounts in the front of the buffer, or the code; what is not written stays.
fn waiting_lists(checks: &mut Checks, dice: &mut Dice, folder: &str) {
    let mut ask = |bytes: &[u8], length: usize, due: Result<&[u8], u8>| {
        let answer = compared(
            dice.bytes(length),
            |list| waiting(bytes, list),
            |list| written(due, list),
        );
        checks.same(&format!("a buffer of {length} bytes"), answer.map(drop), Ok(()));
    };
    let settled = example(folder, "settled_twice");
    for length in [32, 33, 255] {
        ask(&settled, length, Ok(&[]));
        ask(&wait_of(7).bytes, length, Ok(&[7]));
        ask(&wait_of(31).bytes, length, Ok(&[31]));
        ask(&example(folder, "wrong_sum"), length, Err(16));
        ask(&example(folder, "refused_opening_17_0"), length, Err(1));
    }
    for length in [0, 1, 31] {
        ask(&settled, length, Err(17));
        ask(&wait_of(7).bytes, length, Err(17));
        // the bundle's own codes are tried first
        ask(&example(folder, "empty"), length, Err(13));
        ask(&example(folder, "refused_opening_5_1"), length, Err(1));
    }
}

/// Accounts that come to wait in falling order, or in none, are listed lowest first.
fn lowest_first(checks: &mut Checks, dice: &mut Dice) {
    let mut list = |came: &[u8], then: &[Message], listed: &[u8]| list_is(checks, dice, came, then, listed);
    let all: Vec<u8> = (0..32).collect();
    let falling: Vec<u8> = (0..32).rev().collect();
    // an account is booked once another pays it what it lacks
    let pays = |account, recipient| {
        Message::Ruling(Slip {
            account,
            number: 1,
            value: 1,
            recipient,
        })
    };
    list(&[31, 17, 0], &[], &[0, 17, 31]);
    list(&[17, 31, 0], &[], &[0, 17, 31]);
    list(&[9, 8], &[], &[8, 9]);
    list(&falling, &[], &all);
    list(&all, &[], &all);
    list(&[31, 17, 0], &[pays(5, 17)], &[0, 31]);
    list(&[31, 17, 0], &[pays(5, 31), pays(6, 0)], &[17]);
    list(&falling[1..], &[pays(31, 30)], &all[..30]);
}

/// Accounts came to wait in this order, then messages came: the list behind that bundle, and that of the held book.
fn list_is(checks: &mut Checks, dice: &mut Dice, came: &[u8], then: &[Message], listed: &[u8]) {
    let (page, mut messages) = waits(came);
    messages.extend(then);
    let bytes = write(&page, &messages);
    let mut lent = Lent::default();
    lent.open(&page_bytes(&page));
    for message in &messages {
        lent.call(&Sent::of(message));
    }
    for length in [32, 33] {
        let before = dice.bytes(length);
        let due = |list: &mut [u8]| written(Ok(listed), list);
        let behind = compared(before.clone(), |list| waiting(&bytes, list), due);
        checks.same(&format!("{came:?} came, a bundle"), behind, Ok(Ok(listed.len())));
        let held = compared(before, |list| lent.waiting(list), due);
        checks.same(&format!("{came:?} came, a held book"), held, Ok(Ok(listed.len())));
    }
}

/// A book held from before request 3, in which this seat has acked a home that pays itself: its words are taken over,
/// and the host goes on with the new ones. That slip meets 20, another of its number 12; acks and rulings for it are
/// taken.
fn held_book(checks: &mut Checks) {
    let page = OpeningPage::of(2, 0, &[10, 5]);
    let slip = Slip {
        account: 0,
        number: 1,
        value: 4,
        recipient: 0,
    };
    let another = Slip { recipient: 1, ..slip };
    let next = Slip { number: 2, ..slip };
    let mut book = Book::open(&page).expect("a good page").under(Rules::First);
    book.call(&Message::Slip(slip));
    let mut lent = Lent::taken_over(&Lent::of(&page, &book).as_before());
    book.switch();
    book.switch();
    checks.same("the words of a book that is held", lent.holds(&page, &book), Ok(()));
    let calls = [
        (Message::Slip(slip), b'R', 20),
        (Message::Slip(another), b'R', 12),
        (Message::Request(slip), b'R', 20),
        (Message::Ack { seat: 0, slip }, b'N', 0),
        (Message::Ack { seat: 1, slip }, b'K', 1),
        (Message::Slip(next), b'R', 20),
        (Message::Ruling(next), b'K', 1),
        (Message::Question { account: 0 }, b'B', 10),
    ];
    for (message, letter, value) in calls {
        let reply = lent.call(&Sent::of(&message));
        checks.same(&format!("{message}"), reply, [letter.into(), value, 0, 0, 0]);
    }
}

/// All that is known of books.
fn of_books(checks: &mut Checks, dice: &mut Dice, folder: &str) {
    checks.part("host: known pages");
    known::answers(checks, dice, folder);
    known::examples(checks, folder, None);
    checks.part("host: acks, openings");
    acks(checks);
    openings(checks, dice);
    checks.part("host: messages handed over rightly and wrongly");
    handed::known(checks);
    checks.part("host: a book held from before");
    held_book(checks);
    taken_over::example(checks, folder);
    checks.part("host: saved books");
    saved::known(checks, dice);
}

/// All that is known of bundles.
fn of_bundles(checks: &mut Checks, dice: &mut Dice, folder: &str) {
    checks.part("host: inputs that are too long or damaged");
    long_inputs(checks, folder);
    damaged(checks, folder);
    checks.part("host: the check of bundles");
    bundle_checks(checks, folder);
    checks.part("host: waiting lists");
    waiting_lists(checks, dice, folder);
    lowest_first(checks, dice);
    checks.part("host: the writer of bundles");
    writing::examples(checks, dice, folder);
    writing::known_replies(checks, dice);
    writing::counts(checks, dice);
    checks.part("host: records that are malformed");
    writing::single_records(checks, dice);
    writing::lowest_wrong(checks, dice);
    writing::last_pieces(checks, dice);
    checks.part("host: the join of two bundles");
    evidence::known::pairs(checks, dice);
    evidence::known::limits(checks, dice);
    evidence::known::refusals(checks, dice, folder);
    evidence::known::pages(checks, dice);
}

fn main() -> ExitCode {
    let folder = match std::env::args().nth(1) {
        Some(folder) => folder,
        None => {
            eprintln!("usage: host DIR, with the folder of examples");
            return ExitCode::from(2);
        }
    };
    let mut checks = Checks::default();
    // the same in every run
    let mut dice = Dice::new(0);
    of_books(&mut checks, &mut dice, &folder);
    of_bundles(&mut checks, &mut dice, &folder);
    checks.finish()
}
