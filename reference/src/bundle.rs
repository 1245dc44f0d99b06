//! A bundle's bytes: written, checked, read. First m, then m contents entries, then the bodies.

use crate::book::{Message, OpeningPage, Slip};

pub const MOST_ENTRIES: usize = 1_000;
/// The bytes of 1,000 entries, an opening page and 999 bodies of 10 bytes.
pub const LONGEST: usize = 18_123;
/// The length of a body, by its kind.
pub const BODY_LENGTHS: [usize; 6] = [131, 10, 10, 10, 10, 1];

pub const OPENING: u8 = 0;
pub const REQUEST: u8 = 1;
pub const SLIP: u8 = 2;
pub const ACK: u8 = 3;
pub const RULING: u8 = 4;
pub const QUESTION: u8 = 5;

/// Why a bundle or an opening is refused: the code, and the entry to be named (0 for codes 1, 2, 3, 13 and 15).
#[derive(Clone, Copy, PartialEq, Eq, Debug)]
pub struct Fault {
    pub code: u8,
    pub entry: usize,
}

/// A contents entry as it stands in the bundle, right or wrong.
#[derive(Clone, Copy, PartialEq, Eq, Debug)]
pub struct Entry {
    pub kind: u8,
    pub seat: u8,
    pub start: u16,
    pub sum: u32,
}

/// What makes a contents entry wrong (code 14).
#[derive(Clone, Copy, PartialEq, Eq, Debug)]
pub enum Wrong {
    /// a kind above 5
    Kind,
    /// kind 0 behind entry 0, or another kind there
    Misplaced,
    Seat,
    Start,
}

impl Entry {
    /// What is wrong with this entry, if it is the one with this number and its body has to start there.
    pub fn wrong(&self, number: usize, start: usize) -> Option<Wrong> {
        if usize::from(self.kind) >= BODY_LENGTHS.len() {
            Some(Wrong::Kind)
        } else if (self.kind == OPENING) != (number == 0) {
            Some(Wrong::Misplaced)
        } else if self.kind != ACK && self.seat != 0 {
            Some(Wrong::Seat)
        } else if usize::from(self.start) != start {
            Some(Wrong::Start)
        } else {
            None
        }
    }
}

/// Where the bodies of a bundle with m entries begin.
pub fn bodies_start(m: usize) -> usize {
    2 + 8 * m
}

/// The sum of a body: each byte replaces it by 31 times the sum plus the byte.
pub fn sum(body: &[u8]) -> u32 {
    body.iter()
        .fold(0, |sum: u32, byte| sum.wrapping_mul(31).wrapping_add(u32::from(*byte)))
}

/// The bytes of the sound bundle with this opening page and these messages, of which there can be at most 999.
pub fn write(page: &OpeningPage, messages: &[Message]) -> Vec<u8> {
    let m = 1 + messages.len();
    assert!(m <= MOST_ENTRIES, "a bundle has at most 999 messages");
    // the contents are filled in as the bodies come
    let mut bytes = vec![0; bodies_start(m)];
    bytes[..2].copy_from_slice(&(m as u16).to_le_bytes());
    push_opening(&mut bytes, page);
    fill_entry(&mut bytes, 0, OPENING, 0, bodies_start(m));
    for (number, message) in (1..).zip(messages) {
        let start = bytes.len();
        let (kind, seat) = push_message(&mut bytes, message);
        fill_entry(&mut bytes, number, kind, seat, start);
    }
    bytes
}

/// Writes that bundle into the front of the buffer and replies its length; 18 if there are more than 999 messages, 19
/// if the buffer is too short. A refusal leaves the buffer as it is. What stands behind the bundle stays.
pub fn write_into(page: &OpeningPage, messages: &[Message], buffer: &mut [u8]) -> Result<usize, u8> {
    if messages.len() >= MOST_ENTRIES {
        return Err(18);
    }
    let bytes = write(page, messages);
    buffer.get_mut(..bytes.len()).ok_or(19)?.copy_from_slice(&bytes);
    Ok(bytes.len())
}

fn push_opening(bytes: &mut Vec<u8>, page: &OpeningPage) {
    bytes.extend([page.n, page.f, page.k]);
    for balance in &page.balances {
        bytes.extend(balance.to_le_bytes());
    }
}

/// Adds the message's body; returns its kind and the seat for its entry.
fn push_message(bytes: &mut Vec<u8>, message: &Message) -> (u8, u8) {
    let (kind, seat, slip) = match message {
        Message::Request(slip) => (REQUEST, 0, slip),
        Message::Slip(slip) => (SLIP, 0, slip),
        Message::Ack { seat, slip } => (ACK, *seat, slip),
        Message::Ruling(slip) => (RULING, 0, slip),
        Message::Question { account } => {
            bytes.push(*account);
            return (QUESTION, 0);
        }
    };
    bytes.push(slip.account);
    bytes.extend(slip.number.to_le_bytes());
    bytes.extend(slip.value.to_le_bytes());
    bytes.push(slip.recipient);
    (kind, seat)
}

/// Fills in the entry of the body that runs from this start to the end of the bytes so far.
fn fill_entry(bytes: &mut [u8], number: usize, kind: u8, seat: u8, start: usize) {
    let sum = sum(&bytes[start..]);
    let entry = &mut bytes[bodies_start(number)..bodies_start(number + 1)];
    entry[0] = kind;
    entry[1] = seat;
    entry[2..4].copy_from_slice(&(start as u16).to_le_bytes());
    entry[4..].copy_from_slice(&sum.to_le_bytes());
}

/// m, or 13, 14, 15 or 16 with its entry: each code is tried over the whole bundle, the lowest entry first.
pub fn check(bytes: &[u8]) -> Result<usize, Fault> {
    let m = stated_entries(bytes).unwrap_or(0);
    if !(1..=MOST_ENTRIES).contains(&m) || bytes.len() < bodies_start(m) {
        return Err(Fault { code: 13, entry: 0 });
    }
    let mut start = bodies_start(m);
    for number in 0..m {
        let entry = entry(bytes, number);
        if entry.wrong(number, start).is_some() {
            return Err(Fault {
                code: 14,
                entry: number,
            });
        }
        start += BODY_LENGTHS[usize::from(entry.kind)];
    }
    if start != bytes.len() {
        return Err(Fault { code: 15, entry: 0 });
    }
    for number in 0..m {
        let entry = entry(bytes, number);
        if sum(body_at(bytes, &entry)) != entry.sum {
            return Err(Fault {
                code: 16,
                entry: number,
            });
        }
    }
    Ok(m)
}

/// The opening page and the messages of a sound bundle.
pub fn read(bytes: &[u8]) -> Result<(OpeningPage, Vec<Message>), Fault> {
    let m = check(bytes)?;
    let page = read_opening(body(bytes, 0));
    let mut messages = Vec::with_capacity(m - 1);
    for number in 1..m {
        let entry = entry(bytes, number);
        messages.push(read_message(entry.kind, entry.seat, body_at(bytes, &entry)));
    }
    Ok((page, messages))
}

/// m as the first two bytes say it.
pub fn stated_entries(bytes: &[u8]) -> Option<usize> {
    let m = bytes.get(..2)?;
    Some(usize::from(u16::from_le_bytes([m[0], m[1]])))
}

/// The contents entry with this number, whose 8 bytes must be there.
pub fn entry(bytes: &[u8], number: usize) -> Entry {
    let entry = &bytes[bodies_start(number)..bodies_start(number + 1)];
    let start = u16::from_le_bytes([entry[2], entry[3]]);
    Entry {
        kind: entry[0],
        seat: entry[1],
        start,
        sum: number_at(entry, 4),
    }
}

/// The body of the entry with this number, in a sound bundle that has it.
pub fn body(bytes: &[u8], number: usize) -> &[u8] {
    body_at(bytes, &entry(bytes, number))
}

/// The body of an entry that is right, in a bundle that ends with its last body.
fn body_at<'a>(bytes: &'a [u8], entry: &Entry) -> &'a [u8] {
    let start = usize::from(entry.start);
    &bytes[start..start + BODY_LENGTHS[usize::from(entry.kind)]]
}

/// The opening page in a body of kind 0.
pub fn read_opening(body: &[u8]) -> OpeningPage {
    let mut balances = [0; 32];
    for (account, balance) in balances.iter_mut().enumerate() {
        *balance = number_at(body, 3 + 4 * account);
    }
    OpeningPage {
        n: body[0],
        f: body[1],
        k: body[2],
        balances,
    }
}

/// The message in a body of kind 1 to 5.
pub fn read_message(kind: u8, seat: u8, body: &[u8]) -> Message {
    if kind == QUESTION {
        return Message::Question { account: body[0] };
    }
    let slip = Slip {
        account: body[0],
        number: number_at(body, 1),
        value: number_at(body, 5),
        recipient: body[9],
    };
    match kind {
        REQUEST => Message::Request(slip),
        SLIP => Message::Slip(slip),
        ACK => Message::Ack { seat, slip },
        _ => Message::Ruling(slip),
    }
}

/// The number in the four bytes at this place, the lowest byte first.
fn number_at(bytes: &[u8], place: usize) -> u32 {
    u32::from_le_bytes([bytes[place], bytes[place + 1], bytes[place + 2], bytes[place + 3]])
}
