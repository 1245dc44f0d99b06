//! What is handed over wrongly: a kind, a seat or a length that no entry of a bundle has with its body, and the code
//! that is due before all else.

use crate::books::held::same_words;
use crate::books::lent::{self, Lent, Sent};
use crate::shared::checks::Checks;
use crate::shared::dice::Dice;
use reference::book::{Book, Message, OpeningPage, Reply};
use reference::bundle::{read_message, ACK};

/// What can be wrong, by the code that is due; and two faults at once, of which the first is due.
pub const ROWS: [&str; 7] = [KIND_0, KIND_ABOVE_5, SEAT, EMPTY, SHORT, LONG, BOTH];
const KIND_0: &str = "handed over: 14 kind 0";
const KIND_ABOVE_5: &str = "handed over: 14 kind above 5";
const SEAT: &str = "handed over: 14 seat";
const EMPTY: &str = "handed over: 15 empty";
const SHORT: &str = "handed over: 15 short";
const LONG: &str = "handed over: 15 long";
const BOTH: &str = "handed over: 14 before 15";

/// How long the body of a message is, by its kind; none where no message has that kind.
fn length(kind: u8) -> Option<usize> {
    match kind {
        1..=4 => Some(10),
        5 => Some(1),
        _ => None,
    }
}

/// Whether a seat is handed over with a message that has none.
fn has_odd_seat(sent: &Sent) -> bool {
    sent.kind != 3 && sent.seat != 0
}

/// The code by which what is handed over is refused: 14 for its kind or its seat, then 15 for the length of its body.
fn refusal(sent: &Sent) -> Option<u8> {
    match length(sent.kind) {
        None => Some(14),
        Some(_) if has_odd_seat(sent) => Some(14),
        Some(length) => (sent.body.len() != length).then_some(15),
    }
}

/// The row of what is handed over wrongly.
fn row(sent: &Sent) -> Option<&'static str> {
    let is = sent.body.len();
    match length(sent.kind) {
        None => Some(if sent.kind == 0 { KIND_0 } else { KIND_ABOVE_5 }),
        Some(length) if has_odd_seat(sent) => Some(if is == length { SEAT } else { BOTH }),
        Some(length) if is == length => None,
        Some(_) if is == 0 => Some(EMPTY),
        Some(length) => Some(if is < length { SHORT } else { LONG }),
    }
}

/// Hands the message over with a fault: the code that is due comes back, and every word is as it was. Its row.
pub fn refused(dice: &mut Dice, lent: &mut Lent, message: &Message) -> Result<&'static str, String> {
    let sent = spoilt(dice, &Sent::of(message));
    let told = |what| format!("{sent:?} is handed over wrongly: {what}");
    let (row, code) = row(&sent)
        .zip(refusal(&sent))
        .ok_or_else(|| told("it is not".to_string()))?;
    let before = lent.clone();
    let reply = lent.call(&sent);
    if reply != lent::told(&Reply::Refused(code)) {
        return Err(told(format!("the reply is {reply:?} and not R {code}")));
    }
    same_words(&before, lent).map_err(told)?;
    Ok(row)
}

/// The message with one fault or with two.
fn spoilt(dice: &mut Dice, sent: &Sent) -> Sent {
    let mut sent = sent.clone();
    let both = dice.once_in(4);
    let entry = dice.once_in(2);
    if entry || both {
        spoil_entry(dice, &mut sent);
    }
    if !entry || both {
        spoil_body(dice, &mut sent.body);
    }
    sent
}

/// A seat where the kind has none; or a kind that no message has, with a seat or without.
fn spoil_entry(dice: &mut Dice, sent: &mut Sent) {
    let seat = dice.within(1, 255) as u8;
    let seat = *dice.pick(&[1, 16, 255, seat]);
    if sent.kind != ACK && dice.once_in(2) {
        sent.seat = seat;
        return;
    }
    let kind = dice.within(6, 255) as u8;
    sent.kind = *dice.pick(&[0, 0, 6, 255, kind]);
    sent.seat = *dice.pick(&[0, sent.seat, seat]);
}

/// No bytes, some of them, or bytes behind them, perhaps so many that a length of 8 bits would begin again.
fn spoil_body(dice: &mut Dice, body: &mut Vec<u8>) {
    match dice.below(5) {
        0 => body.clear(),
        1 => body.truncate(dice.place(body.len())),
        2 => drop(body.pop()),
        _ => {
            let any = dice.within(1, 130) as usize;
            let more = *dice.pick(&[1, 9, 121, 256, any]);
            body.extend(dice.bytes(more));
        }
    }
}

// What is the same in every run.

/// Every kind with some seats and bodies of many lengths, each to a book just opened that answers what is handed over
/// rightly.
pub fn known(checks: &mut Checks) {
    let page = OpeningPage::of(16, 3, &[10, 5]);
    let book = Book::open(&page).expect("a good page");
    let opened = Lent::of(&page, &book);
    let lengths = || (0..=30).chain([131, 257, 266, 65_537, 65_546]);
    let with_seats = |kind| [0, 1, 15, 255].map(|seat| (kind, seat));
    let mut answered = 0;
    for (kind, seat) in (0..=255).flat_map(with_seats) {
        for length in lengths() {
            // account 0, number 1, value 1, recipient 1
            let mut body = vec![0, 1, 0, 0, 0, 1, 0, 0, 0, 1];
            body.resize(length, 0);
            let is_answered = hand_over(checks, &opened, &book, &Sent { kind, seat, body });
            answered += u32::from(is_answered);
        }
    }
    // request, slip, ruling and question; the acks of seats 0, 1 and 15
    checks.same("how many are not refused", answered, 7);
}

/// The reply to what is handed over, and the words where it is refused. Says whether it is not.
fn hand_over(checks: &mut Checks, opened: &Lent, book: &Book, sent: &Sent) -> bool {
    let due = match refusal(sent) {
        Some(code) => Reply::Refused(code),
        None => book.clone().call(&read_message(sent.kind, sent.seat, &sent.body)),
    };
    let mut after = opened.clone();
    let (kind, seat, length) = (sent.kind, sent.seat, sent.body.len());
    let what = format!("kind {kind}, seat {seat}, a body of {length} bytes");
    checks.same(&what, after.call(sent), lent::told(&due));
    let is_refused = matches!(due, Reply::Refused(_));
    if is_refused {
        checks.that(&format!("{what}: words changed by a refusal"), after == *opened);
    }
    !is_refused
}

// Pages.

/// The page with its length wrong: 15 is due of it, whatever the whole page would be refused by.
pub fn spoilt_page(dice: &mut Dice, page: &[u8]) -> Vec<u8> {
    let mut page = page.to_vec();
    spoil_body(dice, &mut page);
    page
}

/// The row of a page of this length, where the whole page opens (code 0) or is refused by this code.
pub fn page_row(length: usize, code: u8) -> String {
    let how = if length < 131 { "short" } else { "long" };
    let behind = if code == 0 {
        "alone".to_string()
    } else {
        format!("before {code}")
    };
    format!("page handed over {how}: 15 {behind}")
}

/// All of these rows.
pub fn page_rows() -> impl Iterator<Item = String> {
    [130, 132]
        .into_iter()
        .flat_map(|length| (0..=3).map(move |code| page_row(length, code)))
}
