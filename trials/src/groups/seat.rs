//! An honest seat: the messages that it was brought so far, and what it replied to them.

use super::keeper::Keeper;
use super::lies::Lie;
use super::printed::{self, Closing, Printed, Reply};
use super::record::{key_of, Call, Event, Key, Record};
use crate::shared::daybook;
use reference::book::{Message, OpeningPage};
use reference::bundle;
use reference::rules::Rules;

/// A bundle holds the opening page and at most so many messages.
const MOST_MESSAGES: usize = 999;

pub struct Seat {
    number: usize,
    page: OpeningPage,
    messages: Vec<Message>,
    /// The reply to each message, and the rules that it was given by.
    replies: Vec<(Rules, Reply)>,
    closings: Vec<Closing>,
    clerk: Clerk,
}

/// Who answers at a seat.
pub enum Clerk {
    /// The real `daybook`, by what it prints for the bundle of all messages so far, or for what is changed in that text
    /// before anybody reads it: the newest rules from the opening on.
    Daybook(Option<Lie>),
    /// A book that is held from earlier rules on.
    Keeper(Keeper),
}

impl Seat {
    /// A book just opened, and a look at it.
    pub fn open(number: usize, page: OpeningPage, clerk: Clerk, record: &mut Record) -> Seat {
        let opened = page.balances[..page.k.into()].iter();
        let closings = opened
            .map(|balance| Closing {
                balance: *balance,
                current: 0,
            })
            .collect();
        let mut seat = Seat {
            number,
            page,
            messages: Vec::new(),
            replies: Vec::new(),
            closings,
            clerk,
        };
        seat.answer(&[], record);
        seat
    }

    /// Brings these messages, looks behind the last or behind each, and gives the calls.
    pub fn bring(&mut self, batch: &[Message], every_call: bool, record: &mut Record) -> Vec<Call> {
        let before = self.replies.len();
        let step = if every_call { 1 } else { batch.len().max(1) };
        for part in batch.chunks(step) {
            self.answer(part, record);
        }
        (before..self.replies.len()).map(|place| self.call(place)).collect()
    }

    /// The rules that it answers by.
    pub fn rules(&self) -> Rules {
        match &self.clerk {
            Clerk::Daybook(_) => Rules::NEWEST,
            Clerk::Keeper(keeper) => keeper.rules(),
        }
    }

    /// The seat switches to the next rules; `daybook` has switched before.
    pub fn switch(&mut self) {
        if let Clerk::Keeper(keeper) = &mut self.clerk {
            keeper.switch();
        }
    }

    /// In the place of a switch, the seat runs its old bundle again.
    pub fn run_again(&mut self) {
        if let Clerk::Keeper(keeper) = &mut self.clerk {
            keeper.run_again(&self.messages);
        }
    }

    /// In the place of a switch, the seat takes the newest rules and retains nothing.
    pub fn switch_bare(&mut self) {
        if let Clerk::Keeper(keeper) = &mut self.clerk {
            keeper.switch_bare();
        }
    }

    /// How many more messages fit in its bundle.
    pub fn room(&self) -> usize {
        MOST_MESSAGES - self.messages.len()
    }

    pub fn bundle(&self) -> Vec<u8> {
        bundle::write(&self.page, &self.messages)
    }

    pub fn closings(&self) -> &[Closing] {
        &self.closings
    }

    /// Whether it was brought this message and did not refuse it.
    pub fn took(&self, message: &Message) -> bool {
        let refused = |reply: &Reply| matches!(reply, Reply::Refused { .. });
        self.messages
            .iter()
            .zip(&self.replies)
            .any(|(old, (_, reply))| old == message && !refused(reply))
    }

    /// Whether it accepted a slip with this account and number.
    pub fn accepted(&self, key: Key) -> bool {
        let mut calls = (0..self.replies.len()).map(|place| self.call(place));
        calls.any(|call| call.accepted().map(|slip| key_of(&slip)) == Some(key))
    }

    fn call(&self, place: usize) -> Call {
        let (rules, reply) = self.replies[place];
        Call {
            seat: self.number,
            rules,
            message: self.messages[place],
            reply,
        }
    }

    /// These messages come, and are answered; records the calls and a look behind them.
    fn answer(&mut self, messages: &[Message], record: &mut Record) {
        let before = self.replies.len();
        self.messages.extend(messages);
        let outcome = match &mut self.clerk {
            Clerk::Daybook(lie) => {
                let lie = *lie;
                self.printed(lie).and_then(|printed| self.take_in(printed))
            }
            Clerk::Keeper(keeper) => {
                let rules = keeper.rules();
                let (replies, outcome) = keeper.answer(messages);
                self.replies.extend(replies.into_iter().map(|reply| (rules, reply)));
                self.closings = keeper.closings();
                outcome
            }
        };
        if let Err(fault) = outcome {
            record.faults.push(format!("seat {}: {fault}", self.number));
            // Where what is printed means nothing, these messages were never brought.
            self.messages.truncate(self.replies.len());
        }
        let calls = (before..self.replies.len()).map(|place| Event::Call(self.call(place)));
        record.events.extend(calls);
        record.events.push(Event::Look {
            seat: self.number,
            closings: self.closings.clone(),
        });
    }

    /// What `daybook` prints for all messages so far.
    fn printed(&self, lie: Option<Lie>) -> Result<Printed, String> {
        let text = String::from_utf8_lossy(&daybook::text_of(&self.bundle())).into_owned();
        let text = match lie {
            Some(lie) => lie.told(&text, &self.page, &self.messages),
            None => text,
        };
        printed::read(&text, self.messages.len(), self.page.k.into())
    }

    fn take_in(&mut self, printed: Printed) -> Result<(), String> {
        let mut pairs = self.replies.iter().map(|(_, reply)| reply).zip(&printed.replies);
        let changed = match pairs.position(|(old, new)| old != new) {
            None => Ok(()),
            Some(place) => Err(format!(
                "the reply to entry {} was {:?}, now {:?}",
                place + 1,
                self.replies[place].1,
                printed.replies[place]
            )),
        };
        self.replies = printed
            .replies
            .into_iter()
            .map(|reply| (Rules::NEWEST, reply))
            .collect();
        self.closings = printed.closings;
        changed
    }
}
