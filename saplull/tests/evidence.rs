//! Two bundles joined: who is found, which body is shown, and what is refused.

mod common;

use common::{ack, file, transfer};
use saplull::bundle::{self, BundleFault};
use saplull::evidence::{join, Evidence, JoinFault, Which};
use saplull::{Account, Message, Page, Refusal, Seat, Transfer};

/// A number that no book takes: nothing was ruled.
const NONE: Transfer = Transfer {
    account: Account(0),
    number: 0,
    value: 0,
    recipient: Account(0),
};

fn with_seats(seats: u8, messages: &[Message]) -> Vec<u8> {
    bundle::write(&Page::new(seats, 1, &[10, 3, 0]), messages).expect("few messages")
}

fn of(messages: &[Message]) -> Vec<u8> {
    with_seats(6, messages)
}

/// What is found, in which the slip is told as the body says it.
fn found<'a>(first: &'a [u8], second: &'a [u8], ruled: &Transfer) -> Evidence<'a> {
    let found = join(first, second, ruled).unwrap_or_else(|fault| panic!("{fault}"));
    let found = found.expect("a seat that acked two slips");
    assert_eq!(found.transfer.to_bytes(), found.body);
    found
}

/// The seat and both entries.
fn who(first: &[u8], second: &[u8]) -> Option<(u8, u16, u16)> {
    let found = join(first, second, &NONE).unwrap_or_else(|fault| panic!("{fault}"));
    found.map(|evidence| (evidence.seat.0, evidence.first_entry, evidence.second_entry))
}

#[test]
fn the_body_that_is_shown_is_a_part_of_its_bundle() {
    let (t, u) = (transfer(0, 1, 4, 1), transfer(0, 1, 4, 2));
    let first = of(&[Message::Slip(t), ack(0, t), ack(3, t)]);
    let second = of(&[ack(3, u)]);
    // each bundle ends with the body of its ack
    let (of_first, of_second) = (&first[first.len() - 10..], &second[second.len() - 10..]);
    let due = [
        (NONE, Which::First, of_first, t),
        (u, Which::First, of_first, t),
        (transfer(0, 1, 5, 1), Which::First, of_first, t),
        (t, Which::Second, of_second, u),
    ];
    for (ruled, shown, body, slip) in due {
        let evidence = found(&first, &second, &ruled);
        let entries = (evidence.first_entry, evidence.second_entry);
        assert_eq!((evidence.seat, entries), (Seat(3), (3, 1)), "{ruled:?}");
        assert_eq!((evidence.shown, evidence.transfer), (shown, slip), "{ruled:?}");
        assert_eq!(evidence.body.as_ptr_range(), body.as_ptr_range(), "{ruled:?}");
    }
}

#[test]
fn slips_that_conflict_and_slips_that_do_not() {
    let first = of(&[ack(2, transfer(0, 7, 4, 1))]);
    let with = |message| who(&first, &of(&[message]));
    let found = Some((2, 1, 1));
    assert_eq!(with(ack(2, transfer(0, 7, 5, 1))), found, "the value");
    assert_eq!(with(ack(2, transfer(0, 7, 4, 0))), found, "the recipient");
    assert_eq!(with(ack(2, transfer(0, 7, 4, 1))), None, "equal");
    assert_eq!(with(ack(2, transfer(1, 7, 5, 1))), None, "another account");
    assert_eq!(with(ack(2, transfer(0, 8, 5, 1))), None, "another number");
    assert_eq!(with(ack(1, transfer(0, 7, 5, 1))), None, "another seat");
}

/// What is no ack has seat 0 in its entry, so that only its kind tells it from an ack of seat 0.
#[test]
fn only_acks_count() {
    let (t, u) = (transfer(0, 7, 4, 1), transfer(0, 7, 5, 1));
    let first = of(&[ack(0, t)]);
    assert_eq!(who(&first, &of(&[ack(0, u)])), Some((0, 1, 1)));
    for other in [Message::Request, Message::Slip, Message::Ruling] {
        let second = of(&[other(u)]);
        assert_eq!(who(&first, &second), None, "{:?}", other(u));
        assert_eq!(who(&second, &first), None, "{:?}", other(u));
        assert_eq!(who(&of(&[other(t)]), &second), None, "{:?}", other(u));
        assert_eq!(
            who(&first, &of(&[other(u), ack(0, u)])),
            Some((0, 1, 2)),
            "{:?}",
            other(u)
        );
    }
    // a question's body is one byte, and what stands behind it belongs to the ack
    let behind = of(&[Message::Question(Account(0)), ack(0, u)]);
    assert_eq!(
        (who(&first, &behind), who(&behind, &first)),
        (Some((0, 1, 2)), Some((0, 2, 1)))
    );
}

/// An ack that every book would refuse, with an account that no page has, counts too.
#[test]
fn acks_count_as_they_stand() {
    let (t, u) = (transfer(255, u32::MAX, 0, 254), transfer(255, u32::MAX, u32::MAX, 254));
    let (first, second) = (of(&[ack(5, t)]), of(&[ack(5, u)]));
    let evidence = found(&first, &second, &t);
    assert_eq!(
        (evidence.seat, evidence.shown, evidence.transfer),
        (Seat(5), Which::Second, u)
    );
}

#[test]
fn the_lowest_entry_in_the_first_bundle_then_in_the_second() {
    let (t, u, w) = (transfer(0, 1, 4, 1), transfer(0, 1, 4, 2), transfer(0, 1, 5, 2));
    let question = Message::Question(Account(0));
    // seat 4 has the lowest entry of the second bundle, seat 3 that of the first
    let first = of(&[question, ack(1, t), ack(3, t), ack(4, t)]);
    let second = of(&[ack(4, u), ack(3, t), question, ack(3, u), ack(3, w)]);
    assert_eq!(who(&first, &second), Some((3, 3, 4)));
    assert_eq!(who(&second, &first), Some((4, 1, 4)));
}

#[test]
fn one_bundle_twice() {
    let (t, u) = (transfer(0, 1, 4, 1), transfer(0, 1, 4, 2));
    let both = of(&[ack(3, t), ack(3, u)]);
    assert_eq!(who(&both, &both), Some((3, 1, 2)));
    let evidence = found(&both, &both, &t);
    assert_eq!(evidence.body.as_ptr_range(), both[both.len() - 10..].as_ptr_range());
    let one = of(&[ack(3, t), ack(4, u)]);
    assert_eq!(who(&one, &one), None);
}

/// n is read from the page's first byte, also where the page opens no book.
#[test]
fn the_seat_is_below_n() {
    for (seats, seat, is_found) in [
        (0, 0, false),
        (1, 0, true),
        (1, 1, false),
        (6, 5, true),
        (6, 6, false),
        (99, 98, true),
        (99, 99, false),
        (255, 254, true),
        (255, 255, false),
    ] {
        let one = |value| with_seats(seats, &[ack(seat, transfer(0, 1, value, 1))]);
        let due = is_found.then_some((seat, 1, 1));
        assert_eq!(who(&one(4), &one(5)), due, "n {seats}, seat {seat}");
    }
}

fn refused(first: &[u8], second: &[u8]) -> JoinFault {
    join(first, second, &NONE).expect_err("two bundles that are not joined")
}

#[test]
fn a_bundle_that_is_refused() {
    let sound = of(&[]);
    for (name, code, entry) in [
        ("empty", Refusal::BadHeader, 0),
        ("no_entries", Refusal::BadHeader, 0),
        ("wrong_kind", Refusal::BadContents, 1),
        ("byte_missing", Refusal::BadEnd, 0),
        ("one_byte_too_long", Refusal::BadEnd, 0),
        ("wrong_sum", Refusal::BadSum, 1),
    ] {
        let (bytes, fault) = (file(&format!("examples/{name}.bundle")), BundleFault { code, entry });
        assert_eq!(
            refused(&bytes, &sound),
            JoinFault::Bundle(Which::First, fault),
            "{name}"
        );
        assert_eq!(
            refused(&sound, &bytes),
            JoinFault::Bundle(Which::Second, fault),
            "{name}"
        );
        assert_eq!(refused(&sound, &bytes).code(), code, "{name}");
    }
}

/// All of the first bundle's faults come before the second's, and these before the pages.
#[test]
fn the_order_of_refusals() {
    let (sound, wrong_sum) = (of(&[]), file("examples/wrong_sum.bundle"));
    assert_eq!(
        refused(&wrong_sum, &[]).to_string(),
        "the first bundle: entry 1: a wrong sum"
    );
    assert_eq!(
        refused(&sound, &wrong_sum).to_string(),
        "the second bundle: entry 1: a wrong sum"
    );
    let other = with_seats(7, &[]);
    assert_eq!(refused(&other, &wrong_sum).code(), Refusal::BadSum);
    assert_eq!(refused(&other, &sound), JoinFault::PagesDiffer);
    assert_eq!(refused(&other, &sound).code().code(), 21);
    assert_eq!(
        refused(&other, &sound).to_string(),
        "the two bundles' opening pages differ"
    );
}

#[test]
fn pages_that_differ_in_one_byte() {
    let (t, u) = (transfer(0, 1, 4, 1), transfer(0, 1, 4, 2));
    let (first, second) = (of(&[ack(3, t)]), of(&[ack(3, u)]));
    assert_eq!(who(&first, &second), Some((3, 1, 1)));
    for place in 0..131 {
        let mut other = second.clone();
        other[18 + place] ^= 128;
        let sum = bundle::sum(&other[18..149]);
        other[6..10].copy_from_slice(&sum.to_le_bytes());
        assert_eq!(refused(&first, &other), JoinFault::PagesDiffer, "byte {place}");
    }
}
