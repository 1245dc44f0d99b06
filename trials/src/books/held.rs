//! Books that are held for long, in lent words: each reply, the whole book after it and the waiting list, held to the
//! second program, and the words themselves where nothing may be stored. The Rust package goes along.

use crate::books::lent::{told, Lent, Sent};
use crate::books::packaged::Packaged;
use crate::books::{handed, saved, waiting};
use crate::bundles::trial::caught;
use crate::bundles::{known, openings};
use crate::messages::ledgers;
use crate::messages::rows::Before;
use crate::shared::checks::Checks;
use crate::shared::dice::Dice;
use crate::shared::tallies::{Tallies, SAVED_AND_LOADED, SETTLED_LATER};
use reference::book::{Book, Message, OpeningPage, Reply};

/// The columns of the table; the first is the long life.
const LIVES: [&str; 3] = ["n 16, k 32", "n 6, k 3", "any group"];
/// The long life is the same in every run.
const LONG_SEED: u64 = 16;
const LONG: usize = 200_000;
const SHORTER: usize = 20_000;
/// So many lives of any group, with so many messages each.
const GROUPS: u64 = 60;
const SHORT: usize = 500;
/// One in so many messages is first handed over wrongly.
const WRONG_EACH: u64 = 50;
/// Behind one in so many messages the book is saved, and the life goes on with what is loaded.
const SAVED_EACH: u64 = 250;

/// The long life, a shorter one of a small group, and short ones of any group, each until all accounts wait; each
/// message is a check.
pub fn lives(checks: &mut Checks, seed: u64) {
    let mut tallies = Tallies::of_lives(&LIVES);
    let large = OpeningPage::of(16, 3, &[100; 32]);
    println!("one book gets {LONG} messages");
    live(checks, &mut tallies, 0, &mut Dice::new(LONG_SEED), &large, LONG);
    let small = OpeningPage::of(6, 1, &[10, 3, 0]);
    live(checks, &mut tallies, 1, &mut Dice::of(seed, 0), &small, SHORTER);
    for index in 1..=GROUPS {
        let mut dice = Dice::of(seed, index);
        let page = openings::sound(&mut dice);
        live(checks, &mut tallies, 2, &mut dice, &page, SHORT);
    }
    tallies.table(checks);
}

/// A life with so many messages. It ends at the first fault, since all behind it would differ.
fn live(checks: &mut Checks, tallies: &mut Tallies, column: usize, dice: &mut Dice, page: &OpeningPage, most: usize) {
    let lived = caught(|| {
        let messages = ledgers::ending(dice, page, most);
        let mut held = Held::open(page)?;
        for (place, message) in (1..).zip(&messages) {
            let met = held.meet(dice, message, tallies, column);
            met.map_err(|what| format!("message {place}, {message:?}: {what}"))?;
            checks.pass();
        }
        Ok(held)
    });
    match lived.and_then(|lived| lived) {
        Ok(held) if column < 2 => println!("{}: {}", LIVES[column], held.told()),
        Ok(_) => {}
        Err(what) => {
            checks.fail(&format!("{}: {what}; opened by {page:?}", LIVES[column]));
        }
    }
}

/// A book in lent words, and one of the Rust package, beside the second program's.
struct Held {
    page: OpeningPage,
    lent: Lent,
    packaged: Packaged,
    book: Book,
    before: Before,
    most_waiting: usize,
}

impl Held {
    fn open(page: &OpeningPage) -> Result<Held, String> {
        let mut lent = Lent::default();
        let book = Book::open(page).map_err(|code| format!("the second program refuses the page by {code}"))?;
        match lent.open(&known::page(page.n, page.f, page.k, &page.balances)) {
            0 => lent.holds(page, &book)?,
            code => return Err(format!("the page is refused by {code}")),
        }
        Ok(Held {
            page: page.clone(),
            lent,
            packaged: Packaged::open(page)?,
            book,
            before: Before::open(page).ok_or("the page is refused")?,
            most_waiting: 0,
        })
    }

    /// One message, which is perhaps handed over wrongly before; then the whole book and the waiting list. Then perhaps
    /// the book is saved and loaded.
    fn meet(&mut self, dice: &mut Dice, message: &Message, tallies: &mut Tallies, column: usize) -> Result<(), String> {
        if dice.once_in(WRONG_EACH) {
            tallies.add(column, handed::refused(dice, &mut self.lent, message)?);
        }
        let sent = Sent::of(message);
        let before = self.lent.clone();
        let reply = self.lent.call(&sent);
        let due = self.book.call(message);
        if reply != told(&due) {
            return Err(format!("the reply is {reply:?} and not {due}"));
        }
        if let Reply::Refused(_) = due {
            same_words(&before, &self.lent)?;
        }
        self.lent.holds(&self.page, &self.book)?;
        let words = due.to_string();
        self.packaged.meet(message, &words)?;
        let words: Vec<&str> = words.split(' ').collect();
        tallies.reply(column, sent.kind, &words, &self.before.rows(message, &words));
        if let Reply::Accepted { booked: 1.. } = due {
            let waiting = self.lent.that_wait();
            if before.that_wait().iter().any(|account| !waiting.contains(account)) {
                tallies.add(column, SETTLED_LATER);
            }
        }
        let ask = |list: &mut [u8]| self.lent.waiting(list);
        let answer = waiting::compared(waiting::buffer(dice), ask, |list| self.book.waiting_list(list))?;
        self.most_waiting = self.most_waiting.max(answer.unwrap_or(0));
        tallies.waiting(column, answer);
        if dice.once_in(SAVED_EACH) {
            self.restart(dice)?;
            tallies.add(column, SAVED_AND_LOADED);
        }
        Ok(())
    }

    /// Both books are saved, and both lives go on with what is loaded.
    fn restart(&mut self, dice: &mut Dice) -> Result<(), String> {
        self.lent = saved::restored(dice, &self.lent)?;
        let saved = saved::form(&self.lent.words);
        self.packaged.restart(&self.lent.that_wait(), &saved)
    }

    /// What became of the book, for people.
    fn told(&self) -> String {
        let currents = || (0..self.book.accounts()).map(|account| self.book.current(account));
        let (least, most) = (currents().min().unwrap_or(0), currents().max().unwrap_or(0));
        let waiting = self.most_waiting;
        format!("current numbers {least} to {most} at the end; at most {waiting} accounts seen to wait at once")
    }
}

/// Whether every word is as it was, or has to be.
pub fn same_words(due: &Lent, is: &Lent) -> Result<(), String> {
    let mut places = due.words.iter().zip(&is.words[..]);
    match places.position(|(due, is)| due != is) {
        None => Ok(()),
        Some(place) => Err(format!(
            "word {place} has to be {} and is {}",
            due.words[place], is.words[place]
        )),
    }
}
