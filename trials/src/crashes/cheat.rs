//! What a member that cheats sends to a seat: slips with one number and another content, and now and then what lets the
//! numbers go on.

use crate::messages::ledgers::with_slip;
use crate::shared::dice::Dice;
use reference::book::{Book, Message, OpeningPage, Slip};

/// A small group, in which numbers go on soon.
pub fn page(dice: &mut Dice) -> OpeningPage {
    let n = dice.within(1, 4) as u8;
    OpeningPage::of(n, 0, &[6, 5, 4])
}

/// A message near what the book holds. Few values, so that slips come again.
pub fn message(dice: &mut Dice, book: &Book) -> Message {
    let account = dice.place(book.accounts());
    let next = book.current(account) + 1;
    let slip = Slip {
        account: account as u8,
        number: *dice.pick(&[next, next, next, next, next, next + 1, next - 1]),
        value: dice.portions(1, 2),
        recipient: dice.place(book.accounts()) as u8,
    };
    let seat = dice.place(book.seats()) as u8;
    match dice.below(8) {
        0..=3 => Message::Slip(slip),
        4 => Message::Question { account: slip.account },
        _ => with_slip(dice, seat, slip),
    }
}

/// After a kill: another slip with the account and number of the message that was at work, if it had any.
pub fn rival(dice: &mut Dice, killed_at: &Message) -> Option<Message> {
    let slip = match *killed_at {
        Message::Request(slip) | Message::Slip(slip) | Message::Ack { slip, .. } | Message::Ruling(slip) => slip,
        Message::Question { .. } => return None,
    };
    let other = Slip {
        value: 3 - slip.value,
        ..slip
    };
    // or the same again
    let again = dice.once_in(4);
    Some(Message::Slip(if again { slip } else { other }))
}
