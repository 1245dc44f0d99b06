//! Request 7 of document 02, which seat acknowledged two slips: replies computed by hand.

mod common;

use common::{ack, slip, Chance, T};
use reference::book::{Message, OpeningPage, Slip};
use reference::bundle;
use reference::evidence::Evidence::{self, Found, Refused};
use reference::evidence::{join, Which};

/// It conflicts with T.
const U: Slip = Slip { value: 5, ..T };
const W: Slip = Slip { recipient: 2, ..T };
const ASKED: Message = Message::Question { account: 0 };

fn page() -> OpeningPage {
    OpeningPage::of(6, 1, &[10, 3])
}

fn of(messages: &[Message]) -> Vec<u8> {
    bundle::write(&page(), messages)
}

/// Seat and entries of the reply, where W is ruled and each ack is of another slip.
fn pair(first: &[u8], second: &[u8]) -> Option<(u8, usize, usize)> {
    match join(first, second, &W) {
        Found {
            seat,
            entries: [one, other],
            shown: Which::First,
            ..
        } => Some((seat, one, other)),
        Evidence::None => None,
        other => panic!("{other:?}"),
    }
}

/// The same of two bundles with the common page.
fn paired(first: &[Message], second: &[Message]) -> Option<(u8, usize, usize)> {
    pair(&of(first), &of(second))
}

/// The same with an ack of T in the first and one of U in the second, both from this seat, where this is n.
fn paired_with(n: u8, seat: u8) -> Option<(u8, usize, usize)> {
    let page = OpeningPage { n, ..page() };
    let [first, second] = [T, U].map(|slip| bundle::write(&page, &[ack(seat, slip)]));
    pair(&first, &second)
}

#[test]
fn the_body_that_is_not_the_ruled_slips() {
    let (first, second) = (of(&[ASKED, ack(2, T)]), of(&[ack(2, U), ASKED, ASKED]));
    let body_of_t = [0, 1, 0, 0, 0, 4, 0, 0, 0, 1];
    let body_of_u = [0, 1, 0, 0, 0, 5, 0, 0, 0, 1];
    for (ruled, shown, body, slip) in [
        (T, Which::Second, body_of_u, U),
        (U, Which::First, body_of_t, T),
        // both differ
        (W, Which::First, body_of_t, T),
        (slip(1, 7, 0, 9), Which::First, body_of_t, T),
    ] {
        let due = Found {
            seat: 2,
            entries: [2, 1],
            shown,
            body: &body,
            slip,
        };
        assert_eq!(join(&first, &second, &ruled), due, "{ruled} is ruled");
    }
}

/// The bytes are those in the bundle: m, three entries, the page and a question stand before them, or two entries and
/// the page.
#[test]
fn where_the_body_stands() {
    let (first, second) = (of(&[ASKED, ack(2, T)]), of(&[ack(2, U)]));
    for (ruled, bundle, start) in [(U, &first, 2 + 24 + 131 + 1), (T, &second, 2 + 16 + 131)] {
        match join(&first, &second, &ruled) {
            Found { body, .. } => assert_eq!(body.as_ptr(), bundle[start..].as_ptr()),
            other => panic!("{other:?}"),
        }
    }
}

#[test]
fn the_earliest_in_the_first_and_then_in_the_second() {
    // (3, 9) comes before (4, 1)
    let first = [ASKED, ASKED, ack(0, T), ack(1, T)];
    let mut second = vec![ack(1, U)];
    second.extend([ASKED; 7]);
    second.push(ack(0, U));
    assert_eq!(paired(&first, &second), Some((0, 3, 9)));
    // the other way round the first of the second bundle comes first
    assert_eq!(paired(&second, &first), Some((1, 1, 4)));
    // of several in the second the earliest, though an equal one stands before it
    let several = [ack(0, T), ack(0, U), ack(0, slip(0, 1, 6, 1)), ack(0, U)];
    assert_eq!(paired(&[ack(0, T)], &several), Some((0, 1, 2)));
    assert_eq!(paired(&several, &[ack(0, T)]), Some((0, 2, 1)));
}

#[test]
fn the_same_bundle_twice() {
    let twice = |messages: &[Message]| paired(messages, messages);
    assert_eq!(twice(&[ASKED, ack(3, T), ack(4, T), ASKED, ack(3, U)]), Some((3, 2, 5)));
    assert_eq!(twice(&[ack(3, T), ack(4, U), ack(3, T)]), None);
    assert_eq!(twice(&[]), None);
}

#[test]
fn what_conflicts() {
    let against_t = |slip| paired(&[ack(5, T)], &[ack(5, slip)]);
    assert_eq!(against_t(U), Some((5, 1, 1)));
    assert_eq!(against_t(slip(0, 1, 4, 0)), Some((5, 1, 1)));
    assert_eq!(against_t(slip(0, 1, 4 + (1 << 24), 1)), Some((5, 1, 1)));
    assert_eq!(against_t(T), None);
    // another number, another account
    assert_eq!(against_t(slip(0, 2, 5, 1)), None);
    assert_eq!(against_t(slip(0, 1 + (1 << 24), 5, 1)), None);
    assert_eq!(against_t(slip(1, 1, 5, 1)), None);
}

#[test]
fn the_same_seat_below_n() {
    assert_eq!(paired(&[ack(2, T)], &[ack(3, U)]), None);
    for (n, seat) in [(1, 0), (6, 5), (16, 15), (17, 16), (99, 98), (255, 254)] {
        assert_eq!(paired_with(n, seat), Some((seat, 1, 1)), "n {n}, seat {seat}");
    }
    for (n, seat) in [
        (0, 0),
        (0, 255),
        (1, 1),
        (6, 6),
        (6, 255),
        (16, 16),
        (99, 99),
        (255, 255),
    ] {
        assert_eq!(paired_with(n, seat), None, "n {n}, seat {seat}");
    }
    // one that is not below n stands before one that is
    assert_eq!(
        paired(&[ack(6, T), ack(5, T)], &[ack(6, U), ack(5, U)]),
        Some((5, 2, 2))
    );
}

/// Slips with another kind count for nothing, on either side.
#[test]
fn acks_alone() {
    for other in [Message::Request(U), Message::Slip(U), Message::Ruling(U)] {
        assert_eq!(paired(&[ack(0, T)], &[other]), None);
        assert_eq!(paired(&[other], &[ack(0, T)]), None);
        assert_eq!(
            paired(&[other, ack(0, T)], &[ack(0, T), other, ack(0, U)]),
            Some((0, 2, 3))
        );
    }
    let page_alone = of(&[]);
    assert_eq!(pair(&page_alone, &page_alone), None);
    assert_eq!(pair(&page_alone, &of(&[ack(0, T)])), None);
}

/// Acks that a book would refuse, by 5, 6 or 7, by the page itself, or as a seat's second.
#[test]
fn acks_as_they_stand() {
    let max = u32::MAX;
    for (one, other) in [
        (slip(0, 0, 4, 1), slip(0, 0, 5, 1)),
        (slip(0, max, 4, 1), slip(0, max, 5, 1)),
        (slip(2, 1, 4, 1), slip(2, 1, 4, 0)),
        (slip(255, 9, 0, 255), slip(255, 9, max, 255)),
        (slip(0, 1, 0, 0), slip(0, 1, 0, 255)),
    ] {
        assert_eq!(paired(&[ack(0, one)], &[ack(0, other)]), Some((0, 1, 1)), "{one}");
    }
    assert_eq!(paired(&[ack(0, U), ack(0, T)], &[ack(0, U)]), Some((0, 2, 1)));
    for wrong in [
        OpeningPage { f: 255, ..page() },
        OpeningPage { k: 0, ..page() },
        OpeningPage { k: 1, ..page() },
        OpeningPage::of(6, 1, &[max; 32]),
    ] {
        let [first, second] = [T, U].map(|slip| bundle::write(&wrong, &[ack(0, slip)]));
        assert_eq!(pair(&first, &second), Some((0, 1, 1)), "{wrong:?}");
    }
}

/// The seat is the contents entry's, which is in no sum; the slip is the body's.
#[test]
fn the_seat_of_the_contents() {
    let mut second = of(&[ack(2, U), ack(3, U)]);
    second[2 + 8 + 1] = 4;
    assert_eq!(pair(&of(&[ack(2, T), ack(3, T)]), &second), Some((3, 2, 2)));
    assert_eq!(pair(&of(&[ack(2, T), ack(4, T)]), &second), Some((4, 2, 1)));
}

/// In bundles with as many acks as there can be, the last pair is found.
#[test]
fn the_longest_bundles() {
    let acks = |last| {
        let mut acks = vec![ack(0, T); 998];
        acks.push(last);
        of(&acks)
    };
    let (first, second) = (acks(ack(5, T)), acks(ack(5, U)));
    assert_eq!([first.len(), second.len()], [bundle::LONGEST; 2]);
    assert_eq!(pair(&first, &second), Some((5, 999, 999)));
    assert_eq!(pair(&first, &first), None);
    assert_eq!(pair(&second, &of(&[ack(5, T)])), Some((5, 999, 1)));
    assert_eq!(pair(&of(&[ack(5, T)]), &second), Some((5, 1, 999)));
}

fn refused(code: u8, which: Which, entry: usize) -> Evidence<'static> {
    Refused {
        code,
        which: Some(which),
        entry,
    }
}

/// The bundle with this byte changed.
fn changed(bytes: &[u8], place: usize) -> Vec<u8> {
    let mut bytes = bytes.to_vec();
    bytes[place] ^= 128;
    bytes
}

/// Bundles that are refused, with the code and the entry: no bytes, a wrong m, the seat of the question at entry 1, the
/// last byte cut off, and the body of the ack at entry 2.
fn refused_bundles() -> [(u8, usize, Vec<u8>); 5] {
    let sound = of(&[ASKED, ack(2, T)]);
    [
        (13, 0, Vec::new()),
        (13, 0, changed(&sound, 1)),
        (14, 1, changed(&sound, 2 + 8 + 1)),
        (15, 0, sound[..sound.len() - 1].to_vec()),
        (16, 2, changed(&sound, sound.len() - 1)),
    ]
}

#[test]
fn the_firsts_refusals_and_then_the_seconds() {
    let sound = of(&[ack(2, U)]);
    // its page differs, which is looked at last
    let other = bundle::write(&OpeningPage { f: 0, ..page() }, &[ack(2, U)]);
    for (code, entry, bytes) in refused_bundles() {
        for beside in [&sound, &other] {
            assert_eq!(join(&bytes, beside, &W), refused(code, Which::First, entry));
            assert_eq!(join(beside, &bytes, &W), refused(code, Which::Second, entry));
        }
        for (_, _, also) in refused_bundles() {
            assert_eq!(join(&bytes, &also, &W), refused(code, Which::First, entry));
        }
    }
}

/// Each byte of the opening page makes a difference, also one that no book would open with, and nothing else does.
#[test]
fn pages_that_differ() {
    let differ = Refused {
        code: 21,
        which: None,
        entry: 0,
    };
    let (first, second) = (of(&[ack(2, T)]), of(&[ack(2, U), ASKED]));
    assert_eq!(pair(&first, &second), Some((2, 1, 1)));
    let body = bundle::body(&second, 0);
    for place in 0..131 {
        let page = bundle::read_opening(&changed(body, place));
        let other = bundle::write(&page, &[ack(2, U), ASKED]);
        assert_eq!(join(&first, &other, &W), differ, "byte {place}");
        assert_eq!(join(&other, &first, &W), differ, "byte {place}");
    }
}

/// The least of all pairs, read off the bytes one by one.
fn least(first: &[u8], second: &[u8]) -> Option<(usize, usize)> {
    let n = bundle::body(first, 0)[0];
    let acks = |bytes: &[u8]| -> Vec<(usize, u8, Vec<u8>)> {
        let entries = 1..bundle::stated_entries(bytes).expect("a sound bundle");
        let kinds = entries.filter(|entry| bundle::entry(bytes, *entry).kind == 3);
        kinds
            .map(|number| {
                (
                    number,
                    bundle::entry(bytes, number).seat,
                    bundle::body(bytes, number).to_vec(),
                )
            })
            .collect()
    };
    let mut pairs = Vec::new();
    for (i, seat, body) in acks(first) {
        for (j, other_seat, other) in acks(second) {
            if seat == other_seat && seat < n && body[..5] == other[..5] && body[5..] != other[5..] {
                pairs.push((i, j));
            }
        }
    }
    pairs.into_iter().min()
}

#[test]
fn the_least_of_all_pairs() {
    let mut chance = Chance(9);
    let [mut found, mut none] = [0, 0];
    for _ in 0..400 {
        let page = chance.good_page();
        let [first, second] = [30, 30].map(|most| bundle::write(&page, &chance.messages(most)));
        let ruled = chance.slip();
        let least = least(&first, &second);
        match (join(&first, &second, &ruled), least) {
            (Found { entries: [i, j], .. }, Some(least)) => {
                assert_eq!((i, j), least);
                found += 1;
            }
            (Evidence::None, None) => none += 1,
            (other, _) => panic!("{other:?} and not {least:?}"),
        }
    }
    assert!(found > 50 && none > 50, "{found} found, {none} not");
}
