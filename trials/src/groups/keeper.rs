//! A seat's book that was opened under earlier rules: the second program keeps it. Once the seat switches to the
//! newest, the real library takes over its words and goes on with the same book.

use super::printed::{Closing, Reply};
use crate::books::lent::{told, Lent, Sent};
use crate::shared::dice::Dice;
use reference::book::{self, Book, Message, OpeningPage};
use reference::rules::Rules;

pub struct Keeper {
    page: OpeningPage,
    book: Book,
    /// They choose the slip of a P that the first rules leave free.
    dice: Dice,
    /// Since the switch to the newest rules, what the real library goes on with.
    lent: Option<Lent>,
}

impl Keeper {
    pub fn open(page: &OpeningPage, rules: Rules, dice: Dice) -> Keeper {
        let book = Book::open(page).expect("a page that opens").under(rules);
        Keeper {
            page: page.clone(),
            book,
            dice,
            lent: None,
        }
    }

    pub fn rules(&self) -> Rules {
        self.book.rules()
    }

    /// The seat goes on with the book that it holds; under the newest rules nothing changes.
    pub fn switch(&mut self) {
        let words = Lent::of(&self.page, &self.book).as_before();
        self.book.switch();
        if self.lent.is_none() && self.rules() == Rules::NEWEST {
            self.lent = Some(Lent::taken_over(&words));
        }
    }

    /// What is no switch: a book opened anew, to which the same messages come again.
    pub fn run_again(&mut self, messages: &[Message]) {
        self.book = Book::open(&self.page).expect("a page that opens");
        for message in messages {
            self.book.call(message);
        }
        self.lent = Some(Lent::of(&self.page, &self.book));
    }

    /// What is no switch either: the newest rules, with nothing retained of what waits.
    pub fn switch_bare(&mut self) {
        self.book = self.book.clone().under(Rules::NEWEST);
        self.lent = Some(Lent::of(&self.page, &self.book));
    }

    /// The replies; Err beside them says where the real library first differs.
    pub fn answer(&mut self, messages: &[Message]) -> (Vec<Reply>, Result<(), String>) {
        let mut replies = Vec::new();
        let mut same = self.holds_alike();
        for message in messages {
            let dice = &mut self.dice;
            let due = self.book.call_choosing(message, |tied| *dice.pick(tied));
            same = same.and(self.answered_alike(message, &due));
            replies.push(Reply::from(&due));
        }
        (replies, same)
    }

    /// Whether the real library, once it goes on with the book, replies the same and is left with the same book.
    fn answered_alike(&mut self, message: &Message, due: &book::Reply) -> Result<(), String> {
        if let Some(lent) = &mut self.lent {
            let reply = lent.call(&Sent::of(message));
            if reply != told(due) {
                return Err(format!("{message}: the library replies {reply:?} and not {due}"));
            }
        }
        self.holds_alike().map_err(|what| format!("{message}: {what}"))
    }

    fn holds_alike(&self) -> Result<(), String> {
        let lent = self.lent.as_ref();
        lent.map_or(Ok(()), |lent| lent.holds(&self.page, &self.book))
    }

    pub fn closings(&self) -> Vec<Closing> {
        (0..self.book.accounts())
            .map(|account| Closing {
                balance: self.book.balance(account),
                current: self.book.current(account),
            })
            .collect()
    }
}
