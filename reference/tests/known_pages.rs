//! The known answers, document 01's rules one by one, and what document 02 says of ties and of the waiting list.

mod common;

use common::{ack, open, slip, Chance, T};
use reference::book::{Book, Message, OpeningPage, Reply, Slip};
use reference::bundle::{self, Fault};
use reference::daybook;
use reference::known::{AcksNeeded, Asked, Example, Known, Opening, Play, Step, Sum};
use std::path::Path;

const U: Slip = Slip { value: 5, ..T };
const V: Slip = Slip { value: 6, ..T };
const W: Slip = Slip { recipient: 0, ..T };
const X: Slip = Slip { value: 7, ..T };

/// The replies to acks of these slips from seats 0, 1, 2 and so on.
fn acked(book: &mut Book, slips: &[Slip]) -> Vec<Reply> {
    (0..)
        .zip(slips)
        .map(|(seat, slip)| book.call(&ack(seat, *slip)))
        .collect()
}

fn known() -> Known {
    Known::read(Path::new("../examples")).unwrap_or_else(|what| panic!("{what}"))
}

#[test]
fn acks_needed() {
    for AcksNeeded { place, n, f, count } in known().acks_needed {
        let count = usize::from(count);
        let mut due = vec![Reply::Noted; count - 1];
        due.push(Reply::Accepted { booked: 1 });
        assert_eq!(acked(&mut open(n, f, &[10, 3]), &vec![T; count]), due, "{place}");
    }
}

#[test]
fn sums() {
    for Sum { place, bytes, sum } in known().sums {
        assert_eq!(bundle::sum(&bytes), sum, "{place}");
    }
}

#[test]
fn refused_openings() {
    for Opening { place, page, code } in known().openings {
        assert_eq!(Book::open(&page).err(), Some(code), "{place}");
        let bytes = bundle::write(&page, &[Message::Question { account: 0 }]);
        assert_eq!(daybook::printed(&bytes), format!("F {code} 0\n"), "{place}");
    }
}

/// The list comes into the front of a buffer that is long enough, and a shorter one is left as it is.
fn assert_waiting(book: &Book, accounts: &[u8], place: &str) {
    for length in [31, 32, 40] {
        let mut buffer = vec![77; length];
        let (reply, front) = if length < 32 {
            (Err(17), &[][..])
        } else {
            (Ok(accounts.len()), accounts)
        };
        assert_eq!(book.waiting_list(&mut buffer), reply, "{place}");
        let behind = vec![77; length - front.len()];
        assert_eq!(buffer, [front, &behind].concat(), "{place}, {length} bytes");
    }
}

#[test]
fn plays() {
    for Play { place, page, steps, .. } in known().plays {
        let mut book = Book::open(&page).unwrap_or_else(|code| panic!("{place}: refused with {code}"));
        for Step { place, asked } in &steps {
            match asked {
                Asked::Call(message, reply) => assert_eq!(book.call(message), *reply, "{place}"),
                Asked::Waiting(accounts) => assert_waiting(&book, accounts, place),
            }
        }
    }
}

/// The pages of the examples that are known answers, with the examples.
fn examples() -> Vec<(OpeningPage, Example)> {
    let plays = known().plays.into_iter();
    plays.filter_map(|play| Some((play.page, play.example?))).collect()
}

#[test]
fn texts() {
    for (page, Example { bundle, text, messages }) in examples() {
        let name = bundle.display();
        let bytes = bundle::write(&page, &messages);
        assert_eq!(
            std::fs::read(&bundle).expect("a bundle that can be read"),
            bytes,
            "{name}"
        );
        assert_eq!(daybook::printed(&bytes), text, "{name}");
        assert_eq!(daybook::compare(&bytes, text.as_bytes()), Ok(()), "{name}");
    }
}

/// The bytes of the bundle of a known example, and its text.
fn example(name: &str) -> (Vec<u8>, String) {
    let named = |(_, example): &(OpeningPage, Example)| example.bundle.file_stem() == Some(name.as_ref());
    let (page, example) = examples().into_iter().find(named).expect(name);
    (bundle::write(&page, &example.messages), example.text)
}

/// Of a text that is not the right one, the first line that differs is named.
#[test]
fn other_texts() {
    let (bytes, due) = example("tie");
    for other in ["7 P 0 1 5 1", "7 P 0 1 6 1"] {
        let text = due.replace("7 P 0 1 4 1", other);
        let what = format!("line 7 has to be \"7 P 0 1 4 1\\n\" and is \"{other}\\n\"");
        assert_eq!(daybook::compare(&bytes, text.as_bytes()), Err(what));
    }
    let (bytes, due) = example("whole_output");
    for (line, wrong) in [
        (9, &due[..due.len() - 1]),
        (1, &due[4..]),
        (1, ""),
        (3, &due[..9]),
        (10, &format!("{due}\n")),
        (6, &due.replace("K 1", "K 2")),
    ] {
        let what = daybook::compare(&bytes, wrong.as_bytes()).expect_err("another text");
        assert!(
            what.starts_with(&format!("line {line} has to be ")),
            "{wrong:?}: {what}"
        );
    }
}

#[test]
fn openings_at_the_limits_and_in_the_order_of_codes() {
    let too_much = OpeningPage::of(1, 0, &[u32::MAX, 1]);
    let cases = [
        (OpeningPage::of(16, 3, &[1]), Ok(1)),
        (OpeningPage::of(1, 0, &[0; 32]), Ok(32)),
        (OpeningPage::of(1, 0, &[u32::MAX - 1, 1]), Ok(2)),
        // codes rise
        (
            OpeningPage {
                n: 0,
                k: 0,
                ..too_much.clone()
            },
            Err(1),
        ),
        (OpeningPage { k: 1, ..too_much }, Err(2)),
    ];
    for (page, due) in cases {
        assert_eq!(Book::open(&page).map(|book| book.accounts()), due, "{page:?}");
    }
}

#[test]
fn not_this_seats_own_slip_is_put_forward_but_the_most_acked() {
    let mut book = open(6, 1, &[10, 3]);
    assert_eq!(book.call(&Message::Slip(T)), Reply::Ack);
    assert_eq!(acked(&mut book, &[T, U, U, T, U])[4], Reply::PutForward { slip: U });
}

/// A group's n and f, who acks what in the order in which it comes, and the slip that the last ack puts forward.
type Split = (u8, u8, &'static [(Slip, &'static [u8])], Slip);

/// More of them than the known answers have.
const SPLITS: &[Split] = &[
    // of a slip's seats neither the highest decides nor the one that came first
    (8, 1, &[(T, &[7, 5, 0]), (U, &[1, 2, 3]), (V, &[6])], T),
    // the lowest seat is that of the ack at hand
    (8, 1, &[(U, &[1, 2, 3]), (V, &[6]), (T, &[7, 5, 0])], T),
    // two slips
    (2, 0, &[(T, &[0]), (U, &[1])], T),
    (2, 0, &[(T, &[1]), (U, &[0])], U),
    (4, 0, &[(T, &[0]), (U, &[1, 2]), (T, &[3])], T),
    // three
    (3, 0, &[(T, &[1]), (U, &[2]), (V, &[0])], V),
    (3, 0, &[(V, &[2]), (U, &[0]), (T, &[1])], U),
    (11, 2, &[(T, &[8, 9, 10]), (U, &[5, 2, 7]), (V, &[4, 3, 6])], U),
    // four
    (4, 0, &[(T, &[3]), (U, &[1]), (V, &[0]), (W, &[2])], V),
    (9, 1, &[(T, &[2, 8]), (U, &[3, 7]), (V, &[4, 6]), (W, &[5, 1])], W),
    (
        16,
        3,
        &[
            (T, &[15, 9, 4]),
            (U, &[3, 14, 5]),
            (V, &[7, 6, 8]),
            (W, &[12, 2, 13]),
            (X, &[0]),
        ],
        W,
    ),
    // a lower seat's slip has fewer acks, beside a tie and beside none
    (8, 1, &[(V, &[0]), (T, &[4, 5, 6]), (U, &[1, 2, 3])], U),
    (8, 1, &[(T, &[0, 1, 2]), (U, &[3, 4, 5, 6])], U),
    (8, 1, &[(U, &[7, 6, 5]), (V, &[0]), (T, &[1, 2]), (V, &[3])], U),
];

#[test]
fn splits_and_ties() {
    for (n, f, split, put_forward) in SPLITS {
        let mut acks = Vec::new();
        for (slip, seats) in *split {
            acks.extend(seats.iter().map(|seat| ack(*seat, *slip)));
        }
        let mut book = open(*n, *f, &[10, 3]);
        let mut due = vec![Reply::Noted; acks.len() - 1];
        due.push(Reply::PutForward { slip: *put_forward });
        let replies: Vec<Reply> = acks.iter().map(|ack| book.call(ack)).collect();
        assert_eq!(replies, due, "n {n}, f {f}: {split:?}");
    }
}

/// However the same acks come, the same slip is put forward.
#[test]
fn the_order_of_acks_does_not_matter() {
    let mut acks: Vec<Message> = (0..)
        .zip([V, T, U, U, T, T, U])
        .map(|(seat, slip)| ack(seat, slip))
        .collect();
    let mut chance = Chance(9);
    for _ in 0..500 {
        let (one, other) = (chance.below(7) as usize, chance.below(7) as usize);
        acks.swap(one, other);
        let mut book = open(8, 1, &[10, 3]);
        let last = acks.iter().map(|ack| book.call(ack)).last();
        assert_eq!(last, Some(Reply::PutForward { slip: T }), "{acks:?}");
    }
}

/// Accounts that come to wait in falling order are listed lowest first, and a refusal leaves the buffer.
#[test]
fn waiting_lists() {
    let mut book = open(1, 0, &[1; 32]);
    for account in [31, 17, 0] {
        let waits = Message::Ruling(slip(account, 1, 2, account));
        assert_eq!(book.call(&waits), Reply::Accepted { booked: 0 });
    }
    for length in 0..=40 {
        let before: Vec<u8> = (100..).take(length).collect();
        let mut buffer = before.clone();
        let reply = book.waiting_list(&mut buffer);
        if length < 32 {
            assert_eq!((reply, buffer), (Err(17), before));
        } else {
            assert_eq!(
                (reply, &buffer[..3], &buffer[3..]),
                (Ok(3), &[0, 17, 31][..], &before[3..])
            );
        }
    }
    // account 17 gets what it lacks
    let pays = Message::Ruling(slip(5, 1, 1, 17));
    assert_eq!(book.call(&pays), Reply::Accepted { booked: 2 });
    let mut buffer = [7; 32];
    assert_eq!((book.waiting_list(&mut buffer), &buffer[..3]), (Ok(2), &[0, 31, 7][..]));
}

#[test]
fn the_recipient_may_be_the_payer() {
    let mut book = open(1, 0, &[u32::MAX]);
    assert_eq!(
        book.call(&ack(0, slip(0, 1, u32::MAX, 0))),
        Reply::Accepted { booked: 1 }
    );
    assert_eq!((book.balance(0), book.current(0)), (u32::MAX, 1));
}

/// Each message meets the first code that fits it, and often others behind that.
#[test]
fn codes_in_their_order() {
    let mut book = open(6, 1, &[10, 5]);
    // account 0 has booked its number 1, this seat and seat 0 have acked its number 2, and account 1's slip waits
    let before = [
        Message::Ruling(slip(0, 1, 1, 0)),
        Message::Slip(slip(0, 2, 9, 1)),
        ack(0, slip(0, 2, 9, 1)),
        Message::Ruling(slip(1, 1, 15, 0)),
    ];
    for message in &before {
        assert!(!matches!(book.call(message), Reply::Refused(_)), "{message:?}");
    }
    let cases = [
        (ack(6, slip(2, 0, 0, 2)), 4),
        (ack(5, slip(2, 2, 1, 0)), 5),
        (ack(5, slip(0, 2, 1, 2)), 5),
        (Message::Request(slip(0, 0, 1, 0)), 5),
        (Message::Ruling(slip(0, 2, 0, 0)), 5),
        (Message::Slip(slip(0, 1, 16, 0)), 5),
        (Message::Question { account: 2 }, 5),
        (Message::Request(slip(0, 1, 15, 0)), 20),
        (Message::Slip(slip(0, 1, 15, 1)), 6),
        (ack(1, slip(0, 1, 1, 0)), 6),
        (Message::Ruling(slip(0, 3, 15, 0)), 7),
        (Message::Request(slip(1, u32::MAX, 15, 0)), 7),
        (Message::Request(slip(1, 1, 15, 0)), 8),
        (Message::Slip(slip(1, 1, 15, 0)), 8),
        (ack(1, slip(1, 1, 15, 0)), 8),
        (Message::Ruling(slip(1, 1, 15, 0)), 8),
        (ack(0, slip(0, 2, 9, 1)), 9),
        (ack(0, slip(0, 2, 15, 1)), 10),
        (Message::Request(slip(0, 2, 15, 1)), 11),
        (Message::Slip(slip(0, 2, 15, 1)), 12),
        (Message::Slip(slip(0, 2, 9, 1)), 12),
    ];
    for (message, code) in cases {
        assert_eq!(book.call(&message), Reply::Refused(code), "{message:?}");
    }
}

/// Of every call: a refusal changes nothing, K counts the rise of the current numbers, no portion is made or lost.
#[test]
fn every_call() {
    let mut chance = Chance(1);
    let mut replies_seen = [0; 7];
    for _ in 0..300 {
        let page = chance.good_page();
        let mut book = Book::open(&page).expect("a good page opens");
        let total = |book: &Book| {
            (0..book.accounts())
                .map(|account| u64::from(book.balance(account)))
                .sum::<u64>()
        };
        let numbers = |book: &Book| (0..book.accounts()).map(|account| book.current(account)).sum::<u32>();
        let opening_sum = total(&book);
        for message in chance.messages(200) {
            let before = book.clone();
            let rise = match book.call(&message) {
                Reply::Accepted { booked } => booked,
                _ => 0,
            };
            let reply = before.clone().call(&message);
            assert_eq!(numbers(&book), numbers(&before) + rise, "{message:?}");
            assert_eq!(total(&book), opening_sum, "{message:?}");
            if matches!(reply, Reply::Refused(_) | Reply::Circulate | Reply::Balance(_)) {
                assert_eq!(book, before, "{message:?}");
            } else {
                assert_ne!(book, before, "{message:?}");
            }
            replies_seen["CAKPNBR".find(&reply.to_string()[..1]).expect("a reply letter")] += 1;
        }
    }
    assert!(replies_seen.iter().all(|count| *count > 20), "{replies_seen:?}");
}

/// The changes (place, byte), the length, and the code and entry of the fault.
type Damage = (&'static [(usize, u8)], usize, u8, usize);

/// Damages to a bundle of 168 bytes: its opening page's body starts at 26, a question's at 157, an ack's at 158.
const DAMAGES: &[Damage] = &[
    (&[], 0, 13, 0),
    (&[], 1, 13, 0),
    (&[], 25, 13, 0),
    (&[(0, 0)], 168, 13, 0),
    (&[(0, 0xe9), (1, 3)], 9000, 13, 0),
    (&[(1, 255)], 168, 13, 0),
    (&[(2, 1)], 168, 14, 0),
    (&[(2, 6)], 168, 14, 0),
    (&[(3, 1)], 168, 14, 0),
    (&[(4, 27)], 168, 14, 0),
    (&[(5, 1)], 168, 14, 0),
    (&[(10, 0)], 168, 14, 1),
    (&[(10, 255)], 168, 14, 1),
    (&[(11, 1)], 168, 14, 1),
    (&[(18, 4)], 168, 14, 2),
    // 14 of a later entry comes before 15 and 16 of an earlier one
    (&[(6, 0), (7, 0), (18, 6)], 26, 14, 2),
    (&[], 26, 15, 0),
    (&[(6, 0), (7, 0)], 167, 15, 0),
    (&[(6, 0), (7, 0)], 169, 15, 0),
    (&[(26, 2), (157, 1)], 168, 16, 0),
    (&[(157, 1), (158, 1)], 168, 16, 1),
    (&[(167, 0)], 168, 16, 2),
];

#[test]
fn faults_of_bundles() {
    let sound = bundle::write(
        &OpeningPage::of(1, 0, &[1]),
        &[Message::Question { account: 0 }, ack(3, T)],
    );
    assert_eq!((bundle::check(&sound), sound.len()), (Ok(3), 168));
    for (changes, length, code, entry) in DAMAGES {
        let mut bytes = sound.clone();
        for (place, byte) in *changes {
            bytes[*place] = *byte;
        }
        bytes.resize(*length, 0);
        let fault = Fault {
            code: *code,
            entry: *entry,
        };
        assert_eq!(bundle::check(&bytes), Err(fault), "{changes:?}, {length} bytes");
        assert_eq!(bundle::read(&bytes), Err(fault));
        assert_eq!(daybook::printed(&bytes), format!("F {code} {entry}\n"));
    }
}

#[test]
fn the_longest_bundle() {
    let bytes = bundle::write(&OpeningPage::of(1, 0, &[1]), &[Message::Request(slip(0, 1, 1, 0)); 999]);
    assert_eq!(bytes.len(), bundle::LONGEST);
    assert_eq!(bundle::check(&bytes), Ok(bundle::MOST_ENTRIES));
    assert!(daybook::printed(&bytes).ends_with("\n999 R 20\n= 0 1 0\n"));
}

#[test]
fn write_and_read() {
    let mut chance = Chance(2);
    for _ in 0..200 {
        let (page, messages) = (chance.any_page(), chance.messages(40));
        let bytes = bundle::write(&page, &messages);
        assert_eq!(bundle::check(&bytes), Ok(1 + messages.len()));
        assert_eq!(bundle::read(&bytes), Ok((page, messages)));
    }
}
