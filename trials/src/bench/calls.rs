//! One call through the library, on a book that is held, against the second program's; and a book saved and loaded.

use super::loads::{loads, Load};
use super::measures::{best, instructions_of, row};
use crate::books::lent::{told, Lent, Sent, SAVED};
use crate::writer::records::page_bytes;
use reference::book::{Book, Message, Reply};

/// A book gets so many messages.
const MESSAGES: usize = 9_984;
/// A book is saved and loaded so often in one round.
const TIMES: usize = 100;

/// Who takes the messages or the bundles, by the word that names it to callgrind's run.
pub const LIBRARY: &str = "library";
pub const SECOND: &str = "second";

/// A load's messages in both forms, and both books just opened.
struct Ready {
    messages: Vec<Message>,
    sent: Vec<Sent>,
    lent: Lent,
    book: Book,
}

impl Ready {
    fn of(load: &Load) -> Result<Ready, String> {
        let refused = |code| format!("{}: the page is refused by {code}", load.name);
        let mut lent = Lent::default();
        match lent.open(&page_bytes(&load.page)) {
            0 => {}
            code => return Err(refused(code)),
        }
        let messages = load.messages(MESSAGES);
        Ok(Ready {
            sent: messages.iter().map(Sent::of).collect(),
            messages,
            lent,
            book: Book::open(&load.page).map_err(refused)?,
        })
    }

    /// The first of the messages come to this book, through the library: how many are refused.
    fn by_library(&self, lent: &mut Lent, count: usize) -> usize {
        let is_refused = |sent: &&Sent| lent.call(sent)[0] == u32::from(b'R');
        self.sent[..count].iter().filter(is_refused).count()
    }

    /// The same by the second program.
    fn by_second(&self, book: &mut Book, count: usize) -> usize {
        let is_refused = |message: &&Message| matches!(book.call(message), Reply::Refused(_));
        self.messages[..count].iter().filter(is_refused).count()
    }

    /// Whether both give the same replies.
    fn is_alike(&self) -> bool {
        let (mut lent, mut book) = (self.lent.clone(), self.book.clone());
        let mut both = self.sent.iter().zip(&self.messages);
        both.all(|(sent, message)| lent.call(sent) == told(&book.call(message)))
    }
}

/// Plays the first of a load's messages, so that callgrind can count that. All of them are made in any case.
pub fn play(by: &str, name: &str, count: &str) -> Result<(), String> {
    let load = loads().into_iter().find(|load| load.name == name);
    let ready = Ready::of(&load.ok_or(format!("{name} is no load"))?)?;
    let count: usize = count.parse().map_err(|_| format!("{count} is no number"))?;
    let (mut lent, mut book) = (ready.lent.clone(), ready.book.clone());
    let refused = match by {
        LIBRARY => ready.by_library(&mut lent, count.min(MESSAGES)),
        SECOND => ready.by_second(&mut book, count.min(MESSAGES)),
        _ => return Err(format!("{by} has to be {LIBRARY} or {SECOND}")),
    };
    println!("{refused} refused");
    Ok(())
}

/// Prints the rows of all loads; `program` is the one that plays.
pub fn measure(program: &str) -> Result<(), String> {
    println!("one call on a held book:");
    for load in loads() {
        println!("{}:", load.name);
        println!(" messages  per message     library  second program   ratio");
        let counted = |by| instructions_of(&[program, "--play", by, load.name], MESSAGES);
        row(
            MESSAGES,
            "instructions",
            counted(LIBRARY)? as f64,
            counted(SECOND)? as f64,
        );
        let ready = Ready::of(&load)?;
        if !ready.is_alike() {
            return Err(format!("{}: the replies of the two differ", load.name));
        }
        let (ours, _) = best(|| ready.lent.clone(), |lent| ready.by_library(lent, MESSAGES));
        let (theirs, _) = best(|| ready.book.clone(), |book| ready.by_second(book, MESSAGES));
        row(
            MESSAGES,
            "nanoseconds",
            ours.as_nanos() as f64,
            theirs.as_nanos() as f64,
        );
    }
    measure_saving(&loads()[0])
}

/// Prints what it takes to save the book behind a load, and to load it.
fn measure_saving(load: &Load) -> Result<(), String> {
    let ready = Ready::of(load)?;
    let mut lent = ready.lent.clone();
    ready.by_library(&mut lent, MESSAGES);
    let mut saved = [0; SAVED];
    let (saving, _) = best(
        || lent.clone(),
        |lent| {
            (0..TIMES).for_each(|_| lent.save(&mut saved));
            TIMES
        },
    );
    let (loading, codes) = best(Lent::default, |fresh| {
        (0..TIMES).map(|_| usize::from(fresh.load(&saved))).sum()
    });
    let mut again = Lent::default();
    if codes != 0 || again.load(&saved) != 0 || again != lent {
        return Err("what was saved is not what is loaded".to_string());
    }
    let each = |time: std::time::Duration| time.as_nanos() as f64 / TIMES as f64;
    println!("a held book, nanoseconds:");
    println!("  saved into a lent buffer  {:>9.1}", each(saving));
    println!("  loaded from it            {:>9.1}", each(loading));
    Ok(())
}
