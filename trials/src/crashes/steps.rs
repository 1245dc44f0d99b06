//! What a seat and its network tell each other: the places of a seat's work, a message as it comes over the pipe, and
//! the order in which a seat works.

use crate::books::lent::{Lent, Sent, REPLY, WORDS};
use crate::shared::daybook::PAGE;
use crate::writer::records::{record, RECORD};
use reference::book::Message;
use reference::bundle::QUESTION;

/// Where a seat is in its work on a message. It tells each place, and waits until it may go on.
#[derive(Clone, Copy, PartialEq, Eq, Debug)]
pub enum Place {
    /// the book has the message, in memory
    Called,
    /// the new file has a part of the book
    Half,
    /// the new file has all of it
    Written,
    /// it is the file now
    Saved,
    /// the reply is sent
    Sent,
}

impl Place {
    pub const ALL: [Place; 5] = [Place::Called, Place::Half, Place::Written, Place::Saved, Place::Sent];
    /// Those of a save, to which a seat also comes as it opens its book.
    pub const OF_SAVES: [Place; 3] = [Place::Half, Place::Written, Place::Saved];

    pub fn byte(self) -> u8 {
        self as u8
    }

    pub fn of(byte: u8) -> Option<Place> {
        Place::ALL.into_iter().find(|place| place.byte() == byte)
    }

    /// The row of a kill at this place.
    pub fn row(self) -> &'static str {
        match self {
            Place::Called => "killed between call and save",
            Place::Half => "killed in the middle of the save",
            Place::Written => "killed before the rename",
            Place::Saved => "killed between save and send",
            Place::Sent => "killed after the send",
        }
    }

    /// The row of a kill at this place of the first save.
    pub fn first_row(self) -> &'static str {
        match self {
            Place::Half => "killed in the first save",
            Place::Written => "killed before the first rename",
            _ => "killed after the first save",
        }
    }
}

/// How a seat works.
#[derive(Clone, Copy, PartialEq, Eq, Debug)]
pub enum Habit {
    /// as it has to
    SaveThenSend,
    /// the order turned round
    SendThenSave,
    /// it saves over the file itself
    WriteOver,
}

impl Habit {
    const ALL: [Habit; 3] = [Habit::SaveThenSend, Habit::SendThenSave, Habit::WriteOver];

    pub fn name(self) -> &'static str {
        match self {
            Habit::SaveThenSend => "save-then-send",
            Habit::SendThenSave => "send-then-save",
            Habit::WriteOver => "write-over",
        }
    }

    /// The place from which on the file has the new book.
    pub fn saved_at(self) -> Place {
        match self {
            Habit::WriteOver => Place::Written,
            _ => Place::Saved,
        }
    }

    pub fn of(name: &str) -> Option<Habit> {
        Habit::ALL.into_iter().find(|habit| habit.name() == name)
    }
}

/// A message over the pipe: its record, and how many bytes of the new file are written when half of it is.
pub const FRAME: usize = RECORD + 2;
/// The page, and that number for the save of a new book.
pub const OPENING: usize = PAGE + 2;
/// A seat that goes on with a book tells this byte and its words. One whose file is no saved book tells, as a byte, the
/// code by which it is refused, and ends.
pub const HOLDS: u8 = 255;
pub const REFUSALS: std::ops::RangeInclusive<u8> = 101..=104;
/// The words of a book, and a reply, over the pipe.
pub const HELD: usize = 4 * WORDS;
pub const TOLD: usize = 4 * REPLY;

pub fn frame(message: &Message, part: u16) -> Vec<u8> {
    let mut bytes = record(message).to_vec();
    bytes.extend(part.to_le_bytes());
    bytes
}

/// The message as the library takes it, and that part.
pub fn unframed(frame: &[u8; FRAME]) -> (Sent, usize) {
    let length = if frame[0] == QUESTION { 1 } else { 10 };
    let sent = Sent {
        kind: frame[0],
        seat: frame[1],
        body: frame[2..2 + length].to_vec(),
    };
    (sent, part_of(&frame[RECORD..]))
}

pub fn opening(page: &[u8; PAGE], part: u16) -> Vec<u8> {
    [&page[..], &part.to_le_bytes()].concat()
}

/// How many bytes are written when half of a save is, from the end of a frame or an opening.
pub fn part_of(bytes: &[u8]) -> usize {
    usize::from(u16::from_le_bytes([bytes[0], bytes[1]]))
}

/// Words as bytes, the lowest first.
pub fn bytes_of(words: &[u32]) -> Vec<u8> {
    words.iter().flat_map(|word| word.to_le_bytes()).collect()
}

fn words_of<const COUNT: usize>(bytes: &[u8]) -> [u32; COUNT] {
    let word = |place: usize| bytes[4 * place..4 * place + 4].try_into().expect("four bytes");
    std::array::from_fn(|place| u32::from_le_bytes(word(place)))
}

pub fn reply_of(bytes: &[u8; TOLD]) -> [u32; REPLY] {
    words_of(bytes)
}

pub fn book_of(bytes: &[u8; HELD]) -> Lent {
    Lent {
        words: Box::new(words_of(bytes)),
    }
}
