//! The waiting list, held to what is due byte for byte: the reply, and the whole buffer after it.

use crate::bundles::trial::caught;
use crate::shared::daybook;
use crate::shared::dice::Dice;
use reference::book::Book;
use reference::bundle;

/// How many accounts wait, or the code of the refusal.
pub type Answer = Result<usize, u8>;

/// A buffer of 0 to 40 bytes, mostly at a limit, with any content.
pub fn buffer(dice: &mut Dice) -> Vec<u8> {
    let any = dice.place(41);
    let length = *dice.pick(&[0, 31, 32, 32, 33, 33, any, any]);
    dice.bytes(length)
}

/// The list behind a bundle, held to the second program, in a buffer that holds this before.
pub fn tried(bytes: &[u8], before: Vec<u8>) -> Result<Answer, String> {
    let ask = |list: &mut [u8]| daybook::waiting(bytes, list);
    caught(|| compared(before, ask, |list| behind(bytes, list))).and_then(|answer| answer)
}

/// Two buffers hold this before: one is lent to the static library, and to the other is done what is due. The numbers
/// returned and all bytes have to be the same.
pub fn compared(
    before: Vec<u8>,
    ask: impl FnOnce(&mut [u8]) -> u32,
    due: impl FnOnce(&mut [u8]) -> Answer,
) -> Result<Answer, String> {
    let (mut list, mut list_due) = (before.clone(), before);
    let (reply, answer) = (ask(&mut list), due(&mut list_due));
    let reply_due = number(answer);
    if (reply, &list) == (reply_due, &list_due) {
        return Ok(answer);
    }
    let told = |reply, list| format!("code {}, count {}, buffer {list:?}", reply / 256, reply % 256);
    Err(format!(
        "waiting list: {} and not {}",
        told(reply, list),
        told(reply_due, list_due)
    ))
}

/// An answer as the static library returns it: the count, or 256 times the code.
pub fn number(answer: Answer) -> u32 {
    match answer {
        Ok(count) => count as u32,
        Err(code) => 256 * u32::from(code),
    }
}

/// These accounts come into the front of the buffer, or a refusal by this code leaves it.
pub fn written(wanted: Result<&[u8], u8>, list: &mut [u8]) -> Answer {
    let accounts = wanted?;
    list[..accounts.len()].copy_from_slice(accounts);
    Ok(accounts.len())
}

/// What the second program answers behind a bundle, and writes.
fn behind(bytes: &[u8], list: &mut [u8]) -> Answer {
    let (page, messages) = bundle::read(bytes).map_err(|fault| fault.code)?;
    let mut book = Book::open(&page)?;
    for message in &messages {
        book.call(message);
    }
    book.waiting_list(list)
}
