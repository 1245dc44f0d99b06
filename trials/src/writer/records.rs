//! The records in which the writer of bundles takes its messages, and what is due of a call of it.

use crate::books::lent::Sent;
use crate::bundles::known;
use crate::bundles::trial::caught;
use crate::shared::around;
use crate::shared::daybook::{self, Written, PAGE};
use crate::shared::dice::Dice;
use crate::shared::tallies::{KIND_0, KIND_ABOVE_5, SEAT_OF_NO_ACK};
use reference::book::{Message, OpeningPage};
use reference::bundle::{self, read_message, write_into, ACK, QUESTION, REQUEST};

/// The length of a record: kind, seat, and the ten bytes of a body.
pub const RECORD: usize = 12;

/// The record of a message. Of a question's body only the first byte is read.
pub fn record(message: &Message) -> [u8; RECORD] {
    let sent = Sent::of(message);
    let mut record = [0; RECORD];
    record[..2].copy_from_slice(&[sent.kind, sent.seat]);
    record[2..2 + sent.body.len()].copy_from_slice(&sent.body);
    record
}

/// The records of messages, one behind the other.
pub fn records(messages: &[Message]) -> Vec<u8> {
    messages.iter().flat_map(record).collect()
}

/// The messages of records that are whole and right.
fn messages(records: &[u8]) -> Vec<Message> {
    let message = |record: &[u8]| read_message(record[0], record[1], &record[2..]);
    records.chunks_exact(RECORD).map(message).collect()
}

/// A page's bytes, as a bundle's body has them.
pub fn page_bytes(page: &OpeningPage) -> [u8; PAGE] {
    let bytes = known::page(page.n, page.f, page.k, &page.balances);
    bytes.try_into().expect("a page of 131 bytes")
}

/// The length of the bundle: m, then for each entry 8 bytes and its body. (The body of a wrong record counts 10.)
pub fn length(records: &[u8]) -> usize {
    let body = |record: &[u8]| if record[0] == QUESTION { 1 } else { 10 };
    let entries = records.chunks_exact(RECORD).map(|record| 8 + body(record));
    2 + 8 + PAGE + entries.sum::<usize>()
}

/// The refusals whose tests a call meets, codes and entries, in the order in which they are tried: the first is due.
pub fn met(records: &[u8], room: usize) -> Vec<(u32, u32)> {
    let tests = [
        (records.len() / RECORD > 999).then_some((18, 0)),
        first_wrong(records).map(|(entry, _)| (14, entry)),
        (records.len() % RECORD > 0).then_some((15, 0)),
        (room < length(records)).then_some((19, 0)),
    ];
    tests.into_iter().flatten().collect()
}

/// The entry of the lowest wrong record, and what is wrong with it.
pub fn first_wrong(records: &[u8]) -> Option<(u32, &'static str)> {
    let mut entries = (1..).zip(records.chunks_exact(RECORD));
    entries.find_map(|(entry, record)| Some((entry, wrong(record)?)))
}

/// What is wrong with a record: its kind is 0 or above 5, or it has a seat and is no ack.
fn wrong(record: &[u8]) -> Option<&'static str> {
    let (kind, seat) = (record[0], record[1]);
    if kind < REQUEST {
        Some(KIND_0)
    } else if kind > QUESTION {
        Some(KIND_ABOVE_5)
    } else if kind != ACK && seat != 0 {
        Some(SEAT_OF_NO_ACK)
    } else {
        None
    }
}

/// What is due of a call, and is done to this buffer. Where each record is whole and right, the second program decides,
/// and has to reply what the tests above give.
fn due(page: &OpeningPage, records: &[u8], buffer: &mut [u8]) -> Result<Written, String> {
    let met = met(records, buffer.len());
    let wanted = met.first().map_or(Ok(length(records) as u32), |refusal| Err(*refusal));
    if met.iter().any(|(code, _)| [14, 15].contains(code)) {
        return Ok(wanted);
    }
    let reply = write_into(page, &messages(records), buffer);
    let reply = reply.map(|length| length as u32).map_err(|code| (code.into(), 0));
    if reply == wanted {
        Ok(wanted)
    } else {
        Err(format!("the second program's reply is {reply:?} and not {wanted:?}"))
    }
}

/// Has the writer write into a buffer of this length. The buffer and the bytes around it hold anything before; after it
/// the reply and each byte have to be what is due. What comes back is the reply and the buffer.
pub fn tried(dice: &mut Dice, page: &OpeningPage, records: &[u8], room: usize) -> Result<(Written, Vec<u8>), String> {
    let told = |what| format!("{} bytes of records, a buffer of {room} bytes: {what}", records.len());
    let outcome = caught(|| call(dice, page, records, room));
    outcome.and_then(|outcome| outcome).map_err(told)
}

fn call(dice: &mut Dice, page: &OpeningPage, records: &[u8], room: usize) -> Result<(Written, Vec<u8>), String> {
    let mut bytes = around::any(dice, room);
    let mut wanted = bytes.clone();
    let lent = around::lent(room);
    let reply_due = due(page, records, &mut wanted[lent.clone()])?;
    let reply = daybook::write(&page_bytes(page), records, &mut bytes[lent.clone()]);
    if reply != reply_due {
        return Err(format!("the reply is {reply:?} and not {reply_due:?}"));
    }
    around::same(&bytes, &wanted).map_err(|what| format!("after the reply {reply:?} {what}"))?;
    Ok((reply, bytes[lent].to_vec()))
}

/// Writes out what the second program reads of these bytes: they have to come out again. Says whether they are sound.
pub fn written_again(dice: &mut Dice, bytes: &[u8]) -> Result<bool, String> {
    let (page, messages) = match caught(|| bundle::read(bytes))? {
        Ok(read) => read,
        Err(_) => return Ok(false),
    };
    let (_, again) = tried(dice, &page, &records(&messages), bytes.len())?;
    if again == bytes {
        Ok(true)
    } else {
        Err(format!(
            "what is read of {} bytes is written out as others",
            bytes.len()
        ))
    }
}
