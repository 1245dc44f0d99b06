//! A run as it happened: the calls at honest seats in one order, and the closing lines looked at between them.

use super::council::Wait;
use super::printed::{Closing, Reply};
use reference::book::{Message, OpeningPage, Slip};
use reference::rules::Rules;

/// An account and a number.
pub type Key = (u8, u32);

pub fn key_of(slip: &Slip) -> Key {
    (slip.account, slip.number)
}

/// One call at an honest seat, with the rules that the seat answered by and its reply.
#[derive(Clone, Copy, Debug)]
pub struct Call {
    pub seat: usize,
    pub rules: Rules,
    pub message: Message,
    pub reply: Reply,
}

impl Call {
    /// A slip answered A is acked by that seat.
    pub fn acked(&self) -> Option<Slip> {
        match (self.message, self.reply) {
            (Message::Slip(slip), Reply::Ack) => Some(slip),
            _ => None,
        }
    }

    /// An ack or ruling answered K accepts its slip at that seat.
    pub fn accepted(&self) -> Option<Slip> {
        match (self.message, self.reply) {
            (Message::Ack { slip, .. }, Reply::Accepted { .. }) => Some(slip),
            (Message::Ruling(slip), Reply::Accepted { .. }) => Some(slip),
            _ => None,
        }
    }

    /// A reply P puts forward the slip that it carries.
    pub fn put_forward(&self) -> Option<Slip> {
        match self.reply {
            Reply::PutForward(slip) => Some(slip),
            _ => None,
        }
    }
}

pub enum Event {
    Call(Call),
    /// The closing lines of a seat, printed behind its calls so far.
    Look {
        seat: usize,
        closings: Vec<Closing>,
    },
}

pub struct Record {
    /// The page that each seat opens from: one and the same, save where that premise is broken.
    pub pages: Vec<OpeningPage>,
    pub bad: Vec<bool>,
    /// How long the council has to wait.
    pub wait: Wait,
    pub events: Vec<Event>,
    /// Texts that could not be read, replies that a longer bundle changed, and replies of the real library, going on
    /// with a book that is held, that are not the second program's.
    pub faults: Vec<String>,
}

impl Record {
    pub fn calls(&self) -> impl Iterator<Item = &Call> {
        self.events.iter().filter_map(|event| match event {
            Event::Call(call) => Some(call),
            Event::Look { .. } => None,
        })
    }
}
