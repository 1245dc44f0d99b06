//! The life of one seat, with all its kills: what is known of it from outside, and what is claimed.

use super::cheat;
use super::network::{Begun, Network};
use super::steps::Place;
use crate::books::lent::{told, REPLY, SAVED};
use crate::shared::dice::Dice;
use crate::shared::seen::Seen;
use crate::writer::records::page_bytes;
use reference::book::{Book, Message, OpeningPage, Reply, Slip};
use std::collections::BTreeMap;
use std::fmt;

/// So often a seat is killed in its life, beside its opening, and before each kill so many messages come at most.
pub const KILLS: usize = 12;
const MESSAGES: u64 = 4;

/// What has to be seen beside the kills at each place.
pub const ROWS: [&str; 4] = [LOST, KEPT, STANDS, GOES_ON];
/// The seat was killed before it saved, and so before it sent: that ack was never given.
const LOST: &str = "A neither saved nor sent, another A";
/// It was killed after it saved and before it sent.
const KEPT: &str = "A saved, not sent, another meets 12";
/// It was killed at some time after it sent.
const STANDS: &str = "A sent, killed, another meets 12";
const GOES_ON: &str = "K after a kill";

/// What is claimed of a seat, and that it runs at all.
#[derive(Clone, Copy, PartialEq, Eq, Debug)]
pub enum Claim {
    AcksStand,
    GoesOn,
    RepliesDue,
    Runs,
}

impl Claim {
    pub fn name(self) -> &'static str {
        match self {
            Claim::AcksStand => "no ack that was sent is contradicted",
            Claim::GoesOn => "it goes on with the book that was saved last",
            Claim::RepliesDue => "each reply that was sent is due",
            Claim::Runs => "the seat runs",
        }
    }
}

#[derive(PartialEq, Eq, Debug)]
pub struct Fault {
    pub claim: Claim,
    what: String,
}

impl fmt::Display for Fault {
    fn fmt(&self, out: &mut fmt::Formatter) -> fmt::Result {
        write!(out, "not so that {}: {}", self.claim.name(), self.what)
    }
}

fn fault(claim: Claim) -> impl Fn(String) -> Fault {
    move |what| Fault { claim, what }
}

type Key = (u8, u32);

fn key(slip: &Slip) -> Key {
    (slip.account, slip.number)
}

pub struct Life<'a, 'b> {
    dice: &'a mut Dice,
    network: &'a mut Network<'b>,
    seen: &'a mut Seen,
    page: OpeningPage,
    /// the second program's book, after the message that is at work, and as it was saved last
    book: Book,
    saved: Book,
    kills: usize,
    /// the slips answered A in what was sent, with how many kills came before
    sent: BTreeMap<Key, (Slip, usize)>,
    /// the slips answered A where the seat was killed before it sent that, and whether it was saved
    unsent: BTreeMap<Key, (Slip, bool)>,
}

impl<'a, 'b> Life<'a, 'b> {
    pub fn open(dice: &'a mut Dice, network: &'a mut Network<'b>, seen: &'a mut Seen) -> Result<Life<'a, 'b>, Fault> {
        let page = cheat::page(dice);
        let book = Book::open(&page).map_err(|code| fault(Claim::Runs)(format!("the page is refused by {code}")))?;
        let mut life = Life {
            dice,
            network,
            seen,
            page,
            saved: book.clone(),
            book,
            kills: 0,
            sent: BTreeMap::new(),
            unsent: BTreeMap::new(),
        };
        life.begin()?;
        Ok(life)
    }

    /// The seat opens its book. Mostly it is killed once in its first save, and opens or goes on as it starts again.
    fn begin(&mut self) -> Result<(), Fault> {
        let kill = (!self.dice.once_in(4)).then(|| *self.dice.pick(&Place::OF_SAVES));
        self.start(kill)?;
        if kill.is_some() {
            self.start(None)?;
        }
        Ok(())
    }

    /// The seat starts: it holds the book that was saved last. Where it opens its book, it is killed at this place.
    fn start(&mut self, kill: Option<Place>) -> Result<(), Fault> {
        let part = self.part();
        let started = self.network.start(&page_bytes(&self.page), part);
        started.map_err(fault(Claim::Runs))?;
        self.book = self.saved.clone();
        let held = loop {
            match self.network.begun().map_err(fault(Claim::Runs))? {
                Begun::At(place) if kill == Some(place) => {
                    self.seen.add(place.first_row());
                    self.kills += 1;
                    return self.network.kill().map_err(fault(Claim::Runs));
                }
                Begun::At(_) => self.network.let_go_on().map_err(fault(Claim::Runs))?,
                Begun::Holds(lent) => break lent.holds(&self.page, &self.book),
                Begun::Refused(code) => break Err(format!("its file is no saved book, refused by {code}")),
            }
        };
        held.map_err(|what| format!("after {} kills: {what}", self.kills))
            .map_err(fault(Claim::GoesOn))
    }

    /// How many bytes of a save are written when half of it is.
    fn part(&mut self) -> u16 {
        *self.dice.pick(&[0, 1, SAVED / 2, SAVED - 1]) as u16
    }

    /// Messages and kills in turn. After each kill mostly comes another slip of the number that was at work.
    pub fn live(mut self) -> Result<(), Fault> {
        let mut killed_at = None;
        for _ in 0..KILLS {
            if let Some(rival) = killed_at.and_then(|message| cheat::rival(self.dice, &message)) {
                self.meet(&rival, None)?;
            }
            for _ in 0..self.dice.below(MESSAGES) {
                let message = cheat::message(self.dice, &self.book);
                self.meet(&message, None)?;
            }
            let message = cheat::message(self.dice, &self.book);
            let place = *self.dice.pick(&Place::ALL);
            self.meet(&message, Some(place))?;
            killed_at = Some(message);
            self.start(None)?;
        }
        Ok(())
    }

    /// One message; at this place the seat is killed.
    fn meet(&mut self, message: &Message, kill: Option<Place>) -> Result<(), Fault> {
        let part = self.part();
        self.network.hand(message, part).map_err(fault(Claim::Runs))?;
        let due = self.book.call(message);
        let mut passed = Vec::new();
        while passed.len() < Place::ALL.len() {
            let told = self.network.told().map_err(fault(Claim::Runs))?;
            passed.push(told.place);
            if told.place == self.network.habit.saved_at() {
                self.saved = self.book.clone();
            }
            if let Some(reply) = told.reply {
                self.take(message, &due, reply)?;
            }
            if kill == Some(told.place) {
                return self.kill(message, &due, &passed);
            }
            self.network.let_go_on().map_err(fault(Claim::Runs))?;
        }
        Ok(())
    }

    fn kill(&mut self, message: &Message, due: &Reply, passed: &[Place]) -> Result<(), Fault> {
        self.network.kill().map_err(fault(Claim::Runs))?;
        self.kills += 1;
        self.seen.add(passed.last().map_or("", |place| place.row()));
        if let (Message::Slip(slip), Reply::Ack, false) = (message, due, passed.contains(&Place::Sent)) {
            let is_saved = passed.contains(&self.network.habit.saved_at());
            self.unsent.insert(key(slip), (*slip, is_saved));
        }
        Ok(())
    }

    /// A reply was sent: it is the one that is due, and an A contradicts no other that was sent.
    fn take(&mut self, message: &Message, due: &Reply, reply: [u32; REPLY]) -> Result<(), Fault> {
        if reply != told(due) {
            let what = format!("{message} after {} kills: {reply:?} and not {due}", self.kills);
            return Err(fault(Claim::RepliesDue)(what));
        }
        match (message, due) {
            (Message::Slip(slip), Reply::Ack) => self.take_ack(slip),
            (Message::Slip(slip), Reply::Refused(12)) => {
                self.count_refused(slip);
                Ok(())
            }
            (_, Reply::Accepted { .. }) if self.kills > 0 => {
                self.seen.add(GOES_ON);
                Ok(())
            }
            _ => Ok(()),
        }
    }

    fn take_ack(&mut self, slip: &Slip) -> Result<(), Fault> {
        if let Some((first, kills)) = self.sent.get(&key(slip)).filter(|(first, _)| first != slip) {
            let what = format!("A for {first} after {kills} kills and for {slip} after {}", self.kills);
            return Err(fault(Claim::AcksStand)(what));
        }
        self.sent.insert(key(slip), (*slip, self.kills));
        if matches!(self.unsent.get(&key(slip)), Some((lost, false)) if lost != slip) {
            self.seen.add(LOST);
        }
        Ok(())
    }

    /// Counts a slip that meets 12, where another of its number was answered A.
    fn count_refused(&mut self, slip: &Slip) {
        if matches!(self.unsent.get(&key(slip)), Some((kept, true)) if kept != slip) {
            self.seen.add(KEPT);
        }
        if matches!(self.sent.get(&key(slip)), Some((sent, kills)) if sent != slip && *kills < self.kills) {
            self.seen.add(STANDS);
        }
    }
}
