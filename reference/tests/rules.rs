//! Request 3 of document 02: a home that pays itself is turned down, the first rules behind their parameter, and the
//! switch from one to the next. What request 5 brings has tests of its own.

mod common;

use common::{ack, open, slip, Chance, T};
use reference::book::{Account, Book, Message, Reply, Slip};
use reference::rules::Rules;

/// `T`'s payer pays itself.
const SELF: Slip = Slip { recipient: 0, ..T };
const OTHER: Slip = Slip { value: 5, ..T };

const NOTED: Reply = Reply::Noted;
const SECOND: Rules = Rules::NoSelfPayments;

fn first_rules(n: u8, f: u8, given: &[u32]) -> Book {
    open(n, f, given).under(Rules::First)
}

fn replies(book: &mut Book, messages: &[Message]) -> Vec<Reply> {
    messages.iter().map(|message| book.call(message)).collect()
}

/// A first slip of account 0, which has 10 of 15 portions: the code since request 3 and the one under the first rules,
/// where 0 is none.
const FIRST_SLIPS: &[(Slip, u8, u8)] = &[
    (SELF, 20, 0),
    (Slip { number: 9, ..SELF }, 20, 7),
    (Slip { value: 11, ..SELF }, 20, 11),
    (Slip { value: 15, ..SELF }, 20, 11),
    (Slip { value: 16, ..SELF }, 5, 5),
    (Slip { value: 0, ..SELF }, 5, 5),
    (
        Slip {
            number: 9,
            value: 0,
            ..SELF
        },
        5,
        5,
    ),
    (Slip { number: 0, ..SELF }, 5, 5),
    // there is no account 2
    (
        Slip {
            account: 2,
            recipient: 2,
            ..SELF
        },
        5,
        5,
    ),
    (T, 0, 0),
    (Slip { number: 9, ..T }, 7, 7),
    (Slip { value: 11, ..T }, 11, 11),
];

#[test]
fn self_payments_meet_20_behind_5() {
    let due = |code, reply| if code > 0 { Reply::Refused(code) } else { reply };
    for (slip, since, first) in FIRST_SLIPS {
        for (rules, code) in [(Rules::NEWEST, *since), (SECOND, *since), (Rules::First, *first)] {
            let book = open(6, 1, &[10, 5]).under(rules);
            let asked = book.clone().call(&Message::Request(*slip));
            assert_eq!(asked, due(code, Reply::Circulate), "request {slip}, {rules:?}");
            let circulated = book.clone().call(&Message::Slip(*slip));
            assert_eq!(circulated, due(code, Reply::Ack), "slip {slip}, {rules:?}");
        }
    }
}

/// What is behind 20 in its order: a number that is booked, one whose slip waits, and one that this seat has acked.
#[test]
fn twenty_before_6_8_and_12() {
    let before = [
        Message::Ruling(slip(0, 1, 1, 1)),
        Message::Slip(slip(0, 2, 9, 1)),
        Message::Ruling(slip(1, 1, 15, 0)),
    ];
    let cases = [
        (Message::Request(slip(0, 1, 1, 0)), 6),
        (Message::Slip(slip(0, 1, 1, 0)), 6),
        (Message::Request(slip(1, 1, 1, 1)), 8),
        (Message::Slip(slip(1, 1, 1, 1)), 8),
        (Message::Slip(slip(0, 2, 1, 0)), 12),
        (Message::Slip(slip(0, 2, 15, 0)), 12),
    ];
    let mut book = open(6, 1, &[10, 5]);
    replies(&mut book, &before);
    for (message, behind) in cases {
        assert_eq!(book.call(&message), Reply::Refused(20), "{message:?}");
        let first = book.clone().under(Rules::First).call(&message);
        assert_eq!(first, Reply::Refused(behind), "{message:?}, the first rules");
    }
}

/// Acks and rulings get the same replies under all rules, and leave the same balances and numbers.
#[test]
fn acks_and_rulings_for_self_payments_are_taken() {
    let (accepted, put_forward) = (Reply::Accepted { booked: 1 }, Reply::PutForward { slip: SELF });
    let enough: Vec<Message> = (0..5).map(|seat| ack(seat, SELF)).collect();
    let split: Vec<Message> = (0..)
        .zip([SELF, SELF, SELF, T, T])
        .map(|(seat, slip)| ack(seat, slip))
        .collect();
    let (waits, ruled) = (slip(0, 1, 11, 0), slip(1, 1, 1, 0));
    let cases = [
        (enough, vec![NOTED, NOTED, NOTED, NOTED, accepted.clone()], (10, 1)),
        (split, vec![NOTED, NOTED, NOTED, NOTED, put_forward], (10, 0)),
        (vec![Message::Ruling(SELF)], vec![accepted], (10, 1)),
        // it waits for its funds as any other does
        (
            vec![Message::Ruling(waits), Message::Ruling(ruled)],
            vec![Reply::Accepted { booked: 0 }, Reply::Accepted { booked: 2 }],
            (11, 1),
        ),
    ];
    for (messages, due, closing) in cases {
        for rules in Rules::ALL {
            let mut book = open(6, 1, &[10, 5]).under(rules);
            assert_eq!(replies(&mut book, &messages), due, "{messages:?}, {rules:?}");
            assert_eq!((book.balance(0), book.current(0)), closing, "{messages:?}, {rules:?}");
        }
    }
}

/// From any book, a message gets the same reply under the first two rules and leaves the same book, save a request or
/// slip that is a self-payment, and a tie, of which `call` chooses what the second rules do.
#[test]
fn nothing_else_differs() {
    let mut chance = Chance(3);
    let mut differed = 0;
    for _ in 0..300 {
        let page = chance.good_page();
        let mut book = Book::open(&page).expect("a good page opens").under(Rules::First);
        for message in chance.messages(200) {
            let mut second = book.clone().under(SECOND);
            let (first_reply, second_reply) = (book.call(&message), second.call(&message));
            match message {
                Message::Request(slip) | Message::Slip(slip) if slip.pays_itself() => {
                    assert!([5, 20].map(Reply::Refused).contains(&second_reply), "{message:?}");
                    differed += u32::from(first_reply != second_reply);
                }
                _ => {
                    assert_eq!(first_reply, second_reply, "{message:?}");
                    assert_eq!(book.clone().under(SECOND), second, "{message:?}");
                }
            }
        }
    }
    assert!(differed > 100, "{differed}");
}

/// A seat that has acked a self-payment switches: its mark stands, and it acks nothing else for that number.
#[test]
fn the_switch_keeps_the_book() {
    let mut book = first_rules(6, 1, &[10, 5]);
    let before = [Message::Slip(SELF), ack(0, SELF), ack(1, SELF)];
    assert_eq!(replies(&mut book, &before), [Reply::Ack, NOTED, NOTED]);
    let held = book.clone();
    book.switch();
    assert_eq!((held.rules(), book.rules()), (Rules::First, SECOND));
    assert_eq!(book, held.under(SECOND));
    let after = [Message::Slip(SELF), Message::Slip(T), ack(2, SELF), ack(0, T)];
    let due = [Reply::Refused(20), Reply::Refused(12), NOTED, Reply::Refused(10)];
    assert_eq!(replies(&mut book, &after), due);
    // the acks of before the switch count, and booking clears the mark
    let last = replies(&mut book, &[ack(3, SELF), ack(4, SELF)]);
    assert_eq!(last, [NOTED, Reply::Accepted { booked: 1 }]);
    assert_eq!((book.balance(0), book.current(0)), (10, 1));
    assert_eq!(book.call(&Message::Slip(slip(0, 2, 4, 1))), Reply::Ack);
}

#[test]
fn a_switch_under_the_newest_rules_changes_nothing() {
    let mut book = open(6, 1, &[10, 5]);
    replies(&mut book, &[Message::Slip(T), ack(0, T)]);
    let before = book.clone();
    book.switch();
    assert_eq!(book, before);
    assert_eq!(Rules::NEWEST.next(), Rules::NEWEST);
}

/// The same messages to a book just opened leave no mark: then the seat would ack twice for one number.
#[test]
fn running_an_old_bundle_again_is_no_switch() {
    let messages = [Message::Slip(SELF), ack(0, SELF)];
    let mut switched = first_rules(6, 1, &[10, 5]);
    replies(&mut switched, &messages);
    switched.switch();
    let mut again = open(6, 1, &[10, 5]);
    replies(&mut again, &messages);
    let marked = Account {
        acked: true,
        ..again.account(0).clone()
    };
    assert_eq!(*switched.account(0), marked);
    assert_ne!(*again.account(0), marked);
    assert_eq!(switched.call(&Message::Slip(T)), Reply::Refused(12));
    assert_eq!(again.call(&Message::Slip(T)), Reply::Ack);
}

/// On a tie the first rules leave P free; the newest do not. The book after it is the same whatever P carries.
#[test]
fn the_first_rules_leave_ties_free() {
    let acks: Vec<Message> = (0..)
        .zip([T, T, OTHER, OTHER, SELF, SELF])
        .map(|(seat, slip)| ack(seat, slip))
        .collect();
    let (last, before) = acks.split_last().expect("six acks");
    for (place, chosen) in [(0, T), (1, T), (2, OTHER), (5, SELF)] {
        let mut book = first_rules(7, 1, &[10, 5]);
        assert_eq!(replies(&mut book, before), vec![NOTED; 5]);
        let mut newest = book.clone().under(Rules::NEWEST);
        let reply = book.call_choosing(last, |tied| tied[place]);
        assert_eq!(reply, Reply::PutForward { slip: chosen });
        let reply = newest.call_choosing(last, |tied| tied[place]);
        assert_eq!(reply, Reply::PutForward { slip: T });
        assert_eq!(book.under(Rules::NEWEST), newest);
    }
}
