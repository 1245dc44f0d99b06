//! Replies of the join that are the same in every run, said without the second program.

use crate::evidence::joined::{found, refused, reply, tried, Given, Words};
use crate::shared::checks::Checks;
use crate::shared::daybook::EVIDENCE;
use crate::shared::dice::Dice;
use reference::book::{Message, OpeningPage, Slip};
use reference::bundle::{self, write};
use std::path::Path;

const T: Slip = Slip {
    account: 0,
    number: 1,
    value: 4,
    recipient: 1,
};
const U: Slip = Slip { value: 5, ..T };
const W: Slip = Slip { recipient: 0, ..T };
/// All ten bytes differ.
const FAR: Slip = Slip {
    account: 255,
    number: 0x0403_0201,
    value: 0x0807_0605,
    recipient: 254,
};
const NEAR: Slip = Slip { value: 0, ..FAR };
const ASKED: Message = Message::Question { account: 1 };
const NONE: Words = [0; EVIDENCE];

fn ack(seat: u8, slip: Slip) -> Message {
    Message::Ack { seat, slip }
}

fn page(n: u8) -> OpeningPage {
    OpeningPage::of(n, 1, &[10, 3])
}

/// The bundle with these messages and the common page.
fn of(messages: &[Message]) -> Vec<u8> {
    write(&page(6), messages)
}

/// Joins, and holds the reply to these words too.
fn known(checks: &mut Checks, dice: &mut Dice, what: &str, [first, second]: [&[u8]; 2], ruled: Slip, due: Words) {
    let (first, second) = (first.to_vec(), second.to_vec());
    let given = Given { first, second, ruled };
    checks.same(what, tried(dice, &given).and_then(|_| reply(dice, &given)), Ok(due));
}

/// Which pair it is, and which body is shown.
pub fn pairs(checks: &mut Checks, dice: &mut Dice) {
    let mut join = |pair: [u32; 5], slip: Slip, what: &str, both: [&[u8]; 2], ruled| {
        known(checks, dice, what, both, ruled, found(pair, &slip))
    };
    let (first, second) = (of(&[ASKED, ack(2, T)]), of(&[ack(2, U), ASKED]));
    let (there, back) = ([&first[..], &second], [&second[..], &first]);
    join([2, 2, 1, 1, 158], T, "neither is ruled", there, W);
    join([2, 2, 1, 1, 158], T, "the second's is ruled", there, U);
    join([2, 2, 1, 2, 157], U, "the first's is ruled", there, T);
    join([2, 1, 2, 2, 158], T, "turned round, the first's is ruled", back, U);
    join([2, 1, 2, 1, 157], U, "turned round, the second's is ruled", back, T);

    let (first, second) = (
        of(&[ASKED, ASKED, ack(0, T), ack(1, T)]),
        of(&[&[ack(1, U)][..], &[ASKED; 7], &[ack(0, U)]].concat()),
    );
    join([0, 3, 9, 1, 175], T, "(3, 9) before (4, 1)", [&first, &second], W);
    join([1, 1, 4, 1, 213], U, "turned round (1, 4)", [&second, &first], W);
    let two_acks = of(&[ack(3, T), ack(3, U)]);
    join([3, 1, 2, 1, 157], T, "the same twice", [&two_acks, &two_acks], W);

    let (first, second) = (of(&[ack(3, FAR)]), of(&[ack(3, NEAR)]));
    join([3, 1, 1, 1, 149], FAR, "any bytes", [&first, &second], NEAR);
    join([3, 1, 1, 2, 149], NEAR, "any bytes, ruled", [&first, &second], FAR);

    let of_last = |slip| of(&[&[ack(0, T); 998][..], &[ack(5, slip)]].concat());
    let (first, second) = (of_last(T), of_last(U));
    join([5, 999, 999, 1, 18_113], T, "the last of 999", [&first, &second], W);
    join([5, 999, 999, 2, 18_113], U, "the last, ruled", [&first, &second], T);
    known(checks, dice, "999 equal acks", [&first, &first], T, NONE);
}

/// What is no pair, or is one only just.
pub fn limits(checks: &mut Checks, dice: &mut Dice) {
    let mut join = |due: Words, what: &str, both: [&[u8]; 2]| known(checks, dice, what, both, W, due);
    let (alone, first) = (of(&[]), of(&[ack(2, T)]));
    join(NONE, "pages alone", [&alone, &alone]);
    join(NONE, "a page alone", [&first, &alone]);
    join(NONE, "one ack twice", [&first, &first]);
    join(NONE, "another seat", [&first, &of(&[ack(3, U)])]);
    let others = of(&[Message::Request(U), Message::Slip(U), Message::Ruling(U)]);
    join(NONE, "no ack", [&of(&[ack(0, T)]), &others]);
    for (n, seat) in [(0, 0), (6, 5), (6, 6), (99, 98), (99, 99), (255, 254), (255, 255)] {
        let [first, second] = [T, U].map(|slip| write(&page(n), &[ack(seat, slip)]));
        let due = if seat < n {
            found([seat.into(), 1, 1, 1, 149], &T)
        } else {
            NONE
        };
        join(due, &format!("n {n}, seat {seat}"), [&first, &second]);
    }
}

/// Refusals, with the examples that are refused, and two sound ones.
pub fn refusals(checks: &mut Checks, dice: &mut Dice, folder: &str) {
    let read = |name: &str| {
        let path = Path::new(folder).join(name).with_extension("bundle");
        std::fs::read(&path).unwrap_or_else(|error| panic!("{}: {error}", path.display()))
    };
    let examples = [
        ("empty", 13, 0),
        ("no_entries", 13, 0),
        ("wrong_kind", 14, 1),
        ("wrong_seat", 14, 1),
        ("wrong_start", 14, 1),
        ("byte_missing", 15, 0),
        ("one_byte_too_long", 15, 0),
        ("wrong_sum", 16, 1),
    ];
    let mut join = |due: Words, what: &str, both: [&[u8]; 2]| known(checks, dice, what, both, T, due);
    let sound = read("longest");
    for (name, code, entry) in examples {
        let bytes = read(name);
        join(refused(code, 1, entry), name, [&bytes, &sound]);
        join(refused(code, 2, entry), name, [&sound, &bytes]);
        for (also, _, _) in examples {
            join(
                refused(code, 1, entry),
                &format!("{name}, {also}"),
                [&bytes, &read(also)],
            );
        }
    }
    join(refused(13, 2, 0), "a million bytes", [&sound, &vec![255; 1_000_000]]);
    join(refused(21, 0, 0), "two pages", [&sound, &read("council")]);
    // an opening that is refused is none of its matters
    let [one, other] = ["refused_opening_5_1", "refused_opening_17_0"].map(read);
    join(NONE, "a refused opening twice", [&one, &one]);
    join(refused(21, 0, 0), "two refused openings", [&one, &other]);
}

/// Each bit of the opening page makes a difference, where there is a pair but for that.
pub fn pages(checks: &mut Checks, dice: &mut Dice) {
    let mut join = |due: Words, what: &str, both: [&[u8]; 2]| known(checks, dice, what, both, W, due);
    let (first, second) = (of(&[ack(2, T)]), [ack(2, U), ASKED]);
    join(found([2, 1, 1, 1, 149], &T), "one page", [&first, &of(&second)]);
    let body = bundle::body(&first, 0);
    for bit in 0..8 * body.len() {
        let mut body = body.to_vec();
        body[bit / 8] ^= 1 << (bit % 8);
        let other = write(&bundle::read_opening(&body), &second);
        let what = format!("bit {bit} of a page");
        join(refused(21, 0, 0), &what, [&first, &other]);
        join(refused(21, 0, 0), &what, [&other, &first]);
    }
}
