//! Request 5 of document 02: the latest accepted slip is retained, and put forward late when an ack conflicts with it;
//! the three sets of rules, and the switch to the newest.

mod common;

use common::{ack, open, slip, Chance, T};
use reference::book::{Account, Book, Message, Reply, Retained, Slip};
use reference::rules::Rules;

/// Conflicts with `T`, and so does `W`.
const U: Slip = Slip { value: 5, ..T };
const W: Slip = Slip { recipient: 0, ..T };
/// Account 1 has too little for it, so it waits; `V` conflicts with it.
const WAITS: Slip = Slip {
    account: 1,
    number: 1,
    value: 9,
    recipient: 0,
};
const V: Slip = Slip { value: 1, ..WAITS };

const NOTED: Reply = Reply::Noted;
const BOOKED: Reply = Reply::Accepted { booked: 1 };
const UNBOOKED: Reply = Reply::Accepted { booked: 0 };

fn put_forward(slip: Slip) -> Reply {
    Reply::PutForward { slip }
}

fn refused(code: u8) -> Reply {
    Reply::Refused(code)
}

/// Each message has to get its reply.
fn play(book: &mut Book, calls: &[(Message, Reply)]) {
    for (place, (message, due)) in calls.iter().enumerate() {
        assert_eq!(book.call(message), *due, "call {place}: {message}");
    }
}

/// A book with n 6, f 1 and balances 10 and 5, once these are played.
fn played(calls: &[(Message, Reply)]) -> Book {
    let mut book = open(6, 1, &[10, 5]);
    play(&mut book, calls);
    book
}

fn acks_of_five(slip: Slip, last: Reply) -> Vec<(Message, Reply)> {
    let mut calls: Vec<(Message, Reply)> = (0..4).map(|seat| (ack(seat, slip), NOTED)).collect();
    calls.push((ack(4, slip), last));
    calls
}

/// Acks of t from seats 0, 1, 2 and of u from 3, 4.
fn split(t: Slip, u: Slip) -> Vec<(Message, Reply)> {
    let mut calls: Vec<(Message, Reply)> = [(0, t), (1, t), (2, t), (3, u)]
        .map(|(seat, slip)| (ack(seat, slip), NOTED))
        .to_vec();
    calls.push((ack(4, u), put_forward(t)));
    calls
}

fn retained(slip: Slip, put_forward: bool) -> Option<Retained> {
    Some(Retained { slip, put_forward })
}

#[test]
fn nothing_is_retained_at_opening() {
    let book = open(6, 1, &[10, 5]);
    assert!((0..2).all(|account| book.account(account).retained.is_none()));
}

/// A booked slip by acks: P in the place of 6, with the retained slip and not the ack's, and once.
#[test]
fn a_booked_slip_is_put_forward_once() {
    let mut book = played(&acks_of_five(T, BOOKED));
    assert_eq!(book.account(0).retained, retained(T, false));
    let before = book.account(0).clone();
    play(&mut book, &[(ack(5, U), put_forward(T))]);
    // the mark is set and nothing else: the ack is not recorded
    let marked = Account {
        retained: retained(T, true),
        ..before
    };
    assert_eq!(*book.account(0), marked);
    play(
        &mut book,
        &[
            (ack(5, U), refused(6)),
            (ack(4, U), refused(6)),
            (ack(5, W), refused(6)),
            (ack(5, T), refused(6)),
        ],
    );
    assert_eq!(*book.account(0), marked);
}

/// A waiting slip by a ruling: P in the place of 8; then it is booked, and the next conflicting ack meets 6.
#[test]
fn a_waiting_slip_is_put_forward_once() {
    let mut book = played(&[(Message::Ruling(WAITS), UNBOOKED)]);
    let before = book.account(1).clone();
    assert_eq!(before.retained, retained(WAITS, false));
    play(&mut book, &[(ack(0, V), put_forward(WAITS))]);
    let marked = Account {
        retained: retained(WAITS, true),
        ..before
    };
    assert_eq!(*book.account(1), marked);
    play(
        &mut book,
        &[
            (ack(0, V), refused(8)),
            (ack(1, V), refused(8)),
            (ack(1, WAITS), refused(8)),
            (Message::Ruling(slip(0, 1, 4, 1)), Reply::Accepted { booked: 2 }),
            (ack(1, V), refused(6)),
            (ack(1, WAITS), refused(6)),
        ],
    );
    assert_eq!(book.account(1).retained, retained(WAITS, true));
    assert_eq!(book.account(1).acks, [None; 16]);
}

/// The first late P comes once the slip is booked, if none came while it waited.
#[test]
fn booking_touches_neither_the_slip_nor_its_mark() {
    let mut book = played(&[
        (Message::Ruling(WAITS), UNBOOKED),
        (Message::Ruling(T), Reply::Accepted { booked: 2 }),
    ]);
    assert_eq!(book.account(1).retained, retained(WAITS, false));
    assert_eq!(book.account(0).retained, retained(T, false));
    play(&mut book, &[(ack(2, V), put_forward(WAITS)), (ack(2, V), refused(6))]);
    // the other account's is untouched
    play(&mut book, &[(ack(2, U), put_forward(T)), (ack(2, U), refused(6))]);
}

/// Only acks bring it; and an ack equal to the retained slip does not.
#[test]
fn other_messages_do_not_bring_it() {
    let mut booked = played(&[(Message::Ruling(T), BOOKED)]);
    let mut waiting = played(&[(Message::Ruling(WAITS), UNBOOKED)]);
    for (book, own, other, code) in [(&mut booked, T, U, 6), (&mut waiting, WAITS, V, 8)] {
        play(
            book,
            &[
                (Message::Request(other), refused(code)),
                (Message::Slip(other), refused(code)),
                (Message::Ruling(other), refused(code)),
                (Message::Request(own), refused(code)),
                (Message::Slip(own), refused(code)),
                (Message::Ruling(own), refused(code)),
                (ack(0, own), refused(code)),
                (ack(0, other), put_forward(own)),
            ],
        );
    }
}

/// 4 and 5 come before it.
#[test]
fn four_and_five_come_before_it() {
    let calls = [
        (ack(6, U), refused(4)),
        (ack(255, U), refused(4)),
        (ack(0, Slip { value: 0, ..T }), refused(5)),
        (ack(0, Slip { value: 16, ..T }), refused(5)),
        (ack(0, Slip { recipient: 2, ..T }), refused(5)),
        (ack(0, Slip { account: 2, ..T }), refused(5)),
        (ack(0, Slip { number: 0, ..T }), refused(5)),
        // above the balance, but not above the opening sum
        (ack(5, Slip { value: 15, ..T }), put_forward(T)),
    ];
    let mut book = played(&[(Message::Ruling(T), BOOKED)]);
    play(&mut book, &calls);
    let mut book = played(&acks_of_five(T, BOOKED));
    play(&mut book, &calls);
}

/// An ack of another number than the retained slip's: 6, 7 and N as before.
#[test]
fn other_numbers_do_not_bring_it() {
    let first = slip(0, 1, 1, 1);
    let (second, other) = (slip(0, 2, 1, 1), slip(0, 2, 2, 1));
    let mut book = played(&[
        (Message::Ruling(first), BOOKED),
        (Message::Ruling(second), BOOKED),
        (ack(0, Slip { value: 2, ..first }), refused(6)),
        (ack(0, first), refused(6)),
        (ack(0, slip(0, 4, 1, 1)), refused(7)),
        (ack(0, slip(0, 3, 1, 1)), NOTED),
    ]);
    // number 1's was given up with the acceptance of number 2, whose mark is its own
    assert_eq!(book.account(0).retained, retained(second, false));
    play(&mut book, &[(ack(0, other), put_forward(second))]);
    // the next acceptance replaces both, also while it waits
    let third = slip(0, 3, 15, 1);
    play(
        &mut book,
        &[
            (Message::Ruling(third), UNBOOKED),
            (ack(1, other), refused(6)),
            (ack(1, Slip { value: 2, ..third }), put_forward(third)),
        ],
    );
    assert_eq!(book.account(0).retained, retained(third, true));
}

/// An ordinary P before the acceptance uses it up: by the ruling for the other slip, and by enough acks.
#[test]
fn a_put_forward_before_the_acceptance_uses_it_up() {
    let mut booked = split(T, U);
    booked.extend([
        (Message::Ruling(U), BOOKED),
        (ack(5, T), refused(6)),
        (ack(0, T), refused(6)),
        (ack(5, W), refused(6)),
    ]);
    assert_eq!(played(&booked).account(0).retained, retained(U, true));
    let mut waiting = split(V, WAITS);
    waiting.extend([
        (Message::Ruling(WAITS), UNBOOKED),
        (ack(5, V), refused(8)),
        (ack(0, V), refused(8)),
        (Message::Ruling(T), Reply::Accepted { booked: 2 }),
        (ack(0, V), refused(6)),
    ]);
    assert_eq!(played(&waiting).account(1).retained, retained(WAITS, true));
    let by_acks = [
        (ack(0, T), NOTED),
        (ack(1, T), NOTED),
        (ack(2, T), NOTED),
        (ack(3, T), NOTED),
        (ack(4, U), put_forward(T)),
        (ack(5, T), BOOKED),
        (ack(4, U), refused(6)),
    ];
    assert_eq!(played(&by_acks).account(0).retained, retained(T, true));
}

/// An ack that its seat had given before the acceptance, when it comes again: a late P, and never 9 or 10.
#[test]
fn an_ack_recorded_before_comes_again() {
    let before = [
        (ack(0, V), NOTED),
        (ack(1, WAITS), NOTED),
        (Message::Ruling(WAITS), UNBOOKED),
    ];
    let mut book = played(&before);
    // nothing comes of the recorded ack by itself
    assert_eq!(book.account(1).retained, retained(WAITS, false));
    play(
        &mut book,
        &[
            (ack(1, WAITS), refused(8)),
            (ack(0, V), put_forward(WAITS)),
            (ack(0, V), refused(8)),
            (ack(0, WAITS), refused(8)),
        ],
    );
    // its seat's first ack stands as it was
    assert_eq!(book.account(1).acks[..2], [Some(V), Some(WAITS)]);
    // a second ack of a seat, which would have met 10
    let mut book = played(&before);
    play(&mut book, &[(ack(1, V), put_forward(WAITS)), (ack(0, V), refused(8))]);
}

/// The mark of the retained slip is not that of the next number, nor the other way around.
#[test]
fn the_next_number_has_a_mark_of_its_own() {
    let (second, other) = (slip(0, 2, 1, 1), slip(0, 2, 2, 1));
    let mut book = played(&[(Message::Ruling(T), BOOKED)]);
    play(&mut book, &split(second, other));
    play(&mut book, &[(ack(0, U), put_forward(T)), (ack(0, U), refused(6))]);
    // first the late P of number 1, then the ordinary one of number 2
    let mut book = played(&[(Message::Ruling(T), BOOKED), (ack(0, U), put_forward(T))]);
    assert!(!book.account(0).put_forward);
    play(&mut book, &split(second, other));
    assert_eq!(book.account(0).retained, retained(T, true));
    // number 2 is accepted with its own mark
    play(
        &mut book,
        &[(Message::Ruling(other), BOOKED), (ack(5, second), refused(6))],
    );
    assert_eq!(book.account(0).retained, retained(other, true));
}

/// A home that paid itself is retained as any other is.
#[test]
fn a_self_payment_is_put_forward_late() {
    play(
        &mut open(6, 1, &[10, 5]),
        &[
            (Message::Ruling(W), BOOKED),
            (ack(0, T), put_forward(W)),
            (Message::Slip(W), refused(20)),
        ],
    );
}

/// Under the earlier rules nothing is retained, and 6 and 8 are as they were.
#[test]
fn the_earlier_rules_have_no_late_put_forward() {
    for rules in [Rules::First, Rules::NoSelfPayments] {
        let mut book = open(6, 1, &[10, 5]).under(rules);
        play(
            &mut book,
            &[
                (Message::Ruling(WAITS), UNBOOKED),
                (ack(0, V), refused(8)),
                (Message::Ruling(T), Reply::Accepted { booked: 2 }),
                (ack(0, V), refused(6)),
                (ack(0, U), refused(6)),
            ],
        );
        assert!((0..2).all(|account| book.account(account).retained.is_none()));
    }
}

/// The rules in their order, and where each switch leads.
#[test]
fn three_sets_of_rules() {
    let [first, second, third] = Rules::ALL;
    assert!(first < second && second < third);
    assert_eq!(Rules::ALL.map(Rules::next), [second, third, third]);
    assert_eq!(third, Rules::NEWEST);
    assert_eq!(open(6, 1, &[10, 5]).rules(), Rules::NEWEST);
    assert_eq!(Rules::ALL.map(Rules::put_forward_late), [false, false, true]);
    assert_eq!(Rules::ALL.map(Rules::turn_down_self_payments), [false, true, true]);
    assert_eq!(Rules::ALL.map(Rules::leave_ties_free), [true, false, false]);
}

/// A book under the rules before request 5: account 0 has booked a slip, account 1 too, and its next one waits with
/// nothing put forward, account 2 waits behind a put-forward, and account 3 has put one forward for its next number.
fn from_before(rules: Rules) -> (Book, [Slip; 2]) {
    let (booked, plain, marked) = (slip(1, 1, 9, 0), slip(1, 2, 9, 0), slip(2, 1, 8, 0));
    let mut book = open(6, 1, &[10, 5, 1, 2]).under(rules);
    play(
        &mut book,
        &[
            (Message::Ruling(T), BOOKED),
            (Message::Ruling(booked), BOOKED),
            (Message::Ruling(plain), UNBOOKED),
        ],
    );
    play(&mut book, &split(slip(2, 1, 1, 0), marked));
    play(&mut book, &[(Message::Ruling(marked), UNBOOKED)]);
    play(&mut book, &split(slip(3, 1, 1, 0), slip(3, 1, 2, 0)));
    (book, [plain, marked])
}

#[test]
fn the_switch_retains_what_waits() {
    let (mut book, [plain, marked]) = from_before(Rules::NoSelfPayments);
    let held = book.clone();
    book.switch();
    assert_eq!(book.rules(), Rules::NEWEST);
    let due = [None, retained(plain, false), retained(marked, true), None];
    for (account, retained) in due.into_iter().enumerate() {
        let due = Account {
            retained,
            ..held.account(account).clone()
        };
        assert_eq!(*book.account(account), due, "account {account}");
    }
    // what waited is booked, and only then the first conflicting ack comes
    play(
        &mut book.clone(),
        &[
            (Message::Ruling(slip(0, 2, 9, 1)), Reply::Accepted { booked: 2 }),
            (ack(0, slip(1, 2, 1, 0)), put_forward(plain)),
            (ack(0, slip(1, 2, 1, 0)), refused(6)),
            (Message::Ruling(slip(0, 3, 7, 2)), Reply::Accepted { booked: 2 }),
            (ack(0, slip(2, 1, 1, 0)), refused(6)),
        ],
    );
    play(
        &mut book,
        &[
            // booked before: it is not retained
            (ack(0, U), refused(6)),
            (ack(0, slip(1, 1, 1, 0)), refused(6)),
            (ack(0, slip(1, 2, 1, 0)), put_forward(plain)),
            (ack(0, slip(1, 2, 1, 0)), refused(8)),
            (ack(0, slip(2, 1, 1, 0)), refused(8)),
            // the put-forward of the next number was in the book, and counts when a slip is accepted
            (Message::Ruling(slip(3, 1, 2, 0)), BOOKED),
            (ack(5, slip(3, 1, 1, 0)), refused(6)),
        ],
    );
    assert_eq!(book.account(3).retained, retained(slip(3, 1, 2, 0), true));
}

/// The first switch retains nothing, the second what waits then; a third changes nothing.
#[test]
fn one_switch_after_the_other() {
    let (mut book, [plain, _]) = from_before(Rules::First);
    let first = book.clone();
    book.switch();
    assert_eq!(book, first.under(Rules::NoSelfPayments));
    play(&mut book, &[(ack(0, slip(1, 2, 1, 0)), refused(8))]);
    book.switch();
    assert_eq!(book.account(1).retained, retained(plain, false));
    play(&mut book, &[(ack(0, slip(1, 2, 1, 0)), put_forward(plain))]);
    let before = book.clone();
    book.switch();
    assert_eq!(book, before);
}

/// What a book's replies tell of late P's.
#[derive(Default)]
struct History {
    /// in the order of their acceptance
    accepted: Vec<Slip>,
    /// accounts and numbers
    put_forward: Vec<(u8, u32)>,
}

impl History {
    fn take(&mut self, message: &Message, reply: &Reply) {
        match (message, reply) {
            (Message::Ack { slip, .. } | Message::Ruling(slip), Reply::Accepted { .. }) => self.accepted.push(*slip),
            (_, Reply::PutForward { slip }) => self.put_forward.push((slip.account, slip.number)),
            _ => {}
        }
    }

    fn has_put_forward(&self, slip: &Slip) -> bool {
        self.put_forward.contains(&(slip.account, slip.number))
    }

    /// The slip of the late P that is due to an ack of this one, if it passes 4 and 5.
    fn due(&self, slip: &Slip) -> Option<Slip> {
        let latest = self.accepted.iter().rfind(|latest| latest.account == slip.account)?;
        let conflict = latest.number == slip.number && latest != slip;
        (conflict && !self.has_put_forward(slip)).then_some(*latest)
    }
}

/// To each of 300 books come at most so many messages, one after the other: `call` gets the book, what the replies told
/// before, and the message, and gives the reply.
fn play_many(seed: u64, most: u64, mut call: impl FnMut(&mut Book, &History, &Message) -> Reply) {
    let mut chance = Chance(seed);
    for _ in 0..300 {
        let mut book = Book::open(&chance.good_page()).expect("a good page opens");
        let mut history = History::default();
        let messages = chance.messages(most);
        messages.iter().for_each(|message| {
            let reply = call(&mut book, &history, message);
            history.take(message, &reply);
        });
    }
}

/// From any book, a message gets the same reply under the second and the third rules and leaves the same but for what
/// is retained, save where a late P is due by what was accepted and put forward, which is 6 or 8 under the second.
#[test]
fn nothing_else_differs() {
    let mut late = [0, 0];
    play_many(5, 200, |book, history, message| {
        let before = book.clone();
        let mut second = book.clone().under(Rules::NoSelfPayments);
        let (reply, without) = (book.call(message), second.call(message));
        let due = match message {
            Message::Ack { slip, .. } if ![4, 5].map(refused).contains(&without) => history.due(slip),
            _ => None,
        };
        assert_eq!(before.late(message), due, "{message}");
        if let Some(accepted) = due {
            assert_eq!(reply, put_forward(accepted), "{message}");
            assert!(alike(&before, book), "{message}");
            assert!([6, 8].map(refused).contains(&without), "{message}");
            late[usize::from(without == refused(6))] += 1;
        } else {
            assert_eq!(reply, without, "{message}");
            assert!(alike(book, &second), "{message}");
        }
        reply
    });
    assert!(late.iter().all(|times| *times > 20), "{late:?}");
}

/// Whether two books are equal but for what is retained.
fn alike(one: &Book, other: &Book) -> bool {
    let rest = |book: &Book, account: usize| Account {
        retained: None,
        ..book.account(account).clone()
    };
    (0..one.accounts()).all(|account| rest(one, account) == rest(other, account))
}

/// In any list of messages a number is put forward at most once, and after its acceptance only with the accepted slip.
#[test]
fn at_most_once_for_a_number() {
    let (mut ordinary, mut late) = (0, 0);
    play_many(55, 300, |book, history, message| {
        let reply = book.call(message);
        if let Reply::PutForward { slip } = reply {
            assert!(!history.has_put_forward(&slip), "{message}");
            let of_number = |accepted: &&Slip| (accepted.account, accepted.number) == (slip.account, slip.number);
            let accepted = history.accepted.iter().find(of_number);
            assert!(accepted.map_or(true, |accepted| *accepted == slip), "{message}");
            late += u32::from(accepted.is_some());
            ordinary += u32::from(accepted.is_none());
        }
        reply
    });
    assert!(late > 50 && ordinary > 50, "{late} late, {ordinary} before");
}
