//! Books held from before request 5 of document 02, in the words of then: taken over, held to the second program's
//! switch word for word, and gone on with.

use crate::books::held::same_words;
use crate::books::lent::{told, HeldWords, Lent, Sent, HELD_WORDS};
use crate::bundles::openings;
use crate::bundles::trial::caught;
use crate::messages::history::History;
use crate::messages::ledgers;
use crate::shared::checks::Checks;
use crate::shared::dice::Dice;
use crate::shared::seen::Seen;
use reference::book::{Book, Message, OpeningPage, Reply, Slip};
use reference::bundle;
use reference::rules::Rules;
use reference::written::parse;

/// The example: its words, and behind this mark in a line the messages that made it.
const EXAMPLE: &str = "held_before_request_5.words";
const MARK: &str = "#: ";
/// What comes to the example's book once it is taken over, and its replies, by hand.
const GOES_ON: [(&str, &str); 21] = [
    // waits, and a slip was put forward
    ("ack 5 (0, 1, 5, 1)", "R 8"),
    // waits, and nothing was: an ack that is recorded comes again
    ("ack 0 (1, 1, 6, 4)", "R 8"),
    ("ack 5 (1, 1, 9, 0)", "P 1 1 6 4"),
    ("ack 5 (1, 1, 9, 0)", "R 8"),
    // booked before the switch
    ("ack 5 (2, 1, 5, 3)", "R 6"),
    ("ack 5 (3, 1, 1, 2)", "R 6"),
    // the marks and acks of the next number
    ("slip (4, 1, 3, 0)", "R 12"),
    ("ack 5 (3, 2, 1, 0)", "N"),
    ("ruling (3, 2, 3, 0)", "K 1"),
    ("ack 0 (3, 2, 1, 0)", "R 6"),
    ("ack 2 (4, 1, 2, 0)", "N"),
    ("ack 3 (4, 1, 2, 0)", "N"),
    ("ack 4 (4, 1, 2, 0)", "P 4 1 2 0"),
    // what waited is booked with it
    ("ack 5 (4, 1, 2, 0)", "K 3"),
    ("ack 5 (0, 1, 5, 1)", "R 6"),
    ("ack 4 (1, 1, 9, 0)", "R 6"),
    ("ack 1 (4, 1, 3, 0)", "R 6"),
    ("ruling (2, 2, 8, 0)", "K 1"),
    ("ack 0 (2, 2, 7, 0)", "P 2 2 8 0"),
    ("ack 0 (2, 1, 5, 3)", "R 6"),
    ("question 4", "B 10"),
];

/// So many books of the second program are taken over, after so many messages at most and before as many.
const BOOKS: u64 = 600;
const MESSAGES: u64 = 120;

/// What comes of an ack that conflicts with its account's latest accepted slip, by what became of that slip.
const ROWS: [&str; 5] = [WAITS, BOOKED_SINCE, MARKED, BOOKED_BEFORE, ACCEPTED_SINCE];
/// It waited at the switch and nothing was put forward: the late P comes while it still waits, or once it is booked.
const WAITS: &str = "waits, nothing put forward: late P";
const BOOKED_SINCE: &str = "waited, and is booked since: late P";
/// It waited at the switch behind a put-forward.
const MARKED: &str = "waits, put forward before: R 8";
/// It was booked before the switch, and nothing was put forward.
const BOOKED_BEFORE: &str = "booked before: R 6";
const ACCEPTED_SINCE: &str = "accepted since: late P";

/// The example's words are those of the second program under the rules of then, and both go on alike.
pub fn example(checks: &mut Checks, folder: &str) {
    let path = format!("{folder}/{EXAMPLE}");
    let tried = caught(|| try_example(checks, &path)).and_then(|tried| tried);
    if let Err(what) = tried {
        checks.fail(&format!("{path}: {what}"));
    }
}

fn try_example(checks: &mut Checks, path: &str) -> Result<(), String> {
    let text = std::fs::read_to_string(path);
    let text = text.map_err(|error| format!("{error}; name the folder that holds this file"))?;
    let (words, (page, book)) = (words_in(&text)?, made(checks, &text)?);
    let same = words == Lent::of(&page, &book).as_before();
    checks.that(&format!("{path}: the words that its messages make"), same);
    let mut both = Both::take_over(page, book, &words)?;
    for (line, due) in GOES_ON {
        let message = message_in(&both.page, line).map_err(|what| format!("then `{line}`: {what}"))?;
        let reply = both.call(&message).map(|reply| reply.to_string());
        checks.same(line, reply, Ok(due.to_string()));
    }
    Ok(())
}

/// The words of the lines that are no comments: 32 with a block, and one with the group.
fn words_in(text: &str) -> Result<Box<HeldWords>, String> {
    let number = |line: usize, word: &str| {
        let wrong = format!("line {line}: `{word}` has to be a number from 0 to {}", u32::MAX);
        word.parse().map_err(|_| wrong)
    };
    let lines = (1..).zip(text.lines()).filter(|(_, words)| !words.starts_with('#'));
    let words = lines.flat_map(|(line, words)| words.split(' ').map(move |word| number(line, word)));
    let words = words.collect::<Result<Box<[u32]>, String>>()?;
    let count = words.len();
    let wrong = |_| format!("it has {count} words and has to have {HELD_WORDS}: 39 for each of 32 accounts, and 4");
    words.try_into().map_err(wrong)
}

/// The page of the lines behind the mark, and the book that their messages make under the rules of then. Each message
/// has to get the reply that stands behind it.
fn made(checks: &mut Checks, text: &str) -> Result<(OpeningPage, Book), String> {
    let lines = (1..).zip(text.lines());
    let mut lines = lines.filter_map(|(line, words)| Some((line, words.strip_prefix(MARK)?)));
    let at = |line: usize| move |what: String| format!("line {line}: {what}");
    let first = lines.next();
    let (first, open) = first.ok_or(format!("the line `{MARK}open ..` has to come first, and there is none"))?;
    let (page, _) = read(open).map_err(at(first))?;
    let refused = |code| format!("line {first}: the page has to open and is refused by {code}");
    let mut book = Book::open(&page).map_err(refused)?.under(Rules::NoSelfPayments);
    for (line, words) in lines {
        let message = message_in(&page, words).map_err(at(line))?;
        let what = format!("{EXAMPLE}: line {line}: the reply to {message}");
        checks.same(&what, book.call(&message).to_string(), reply_behind(words).to_string());
    }
    Ok((page, book))
}

/// The reply in the comment behind a message, at its end; without a comment it is N.
fn reply_behind(line: &str) -> &str {
    let comment = line.split_once('#').map_or("N", |(_, comment)| comment);
    comment.rsplit(':').next().unwrap_or(comment).trim()
}

/// What a text in the text form describes, whose bundle has to be sound.
fn read(text: &str) -> Result<(OpeningPage, Vec<Message>), String> {
    let bytes = parse(text).map_err(|mistake| mistake.what)?;
    bundle::read(&bytes).map_err(|fault| format!("its bundle has to be sound and is refused by {}", fault.code))
}

fn message_in(page: &OpeningPage, line: &str) -> Result<Message, String> {
    match read(&format!("{page}\n{line}"))?.1[..] {
        [message] => Ok(message),
        _ => Err("one message has to stand here".to_string()),
    }
}

/// Books of the second program under earlier rules, after any messages: their words are taken over, and both go on.
pub fn random(checks: &mut Checks, seed: u64) {
    let mut seen = Seen::default();
    for index in 0..BOOKS {
        let mut dice = Dice::of(seed, index);
        let lived = caught(|| one_book(checks, &mut dice, &mut seen)).and_then(|lived| lived);
        checks.same(&format!("book {index} of seed {seed}"), lived, Ok(()));
    }
    seen.table(checks, ROWS);
}

fn one_book(checks: &mut Checks, dice: &mut Dice, seen: &mut Seen) -> Result<(), String> {
    let page = openings::sound(dice);
    let count = 2 * dice.within(0, MESSAGES) as usize;
    let messages = ledgers::lasting(dice, &page, count);
    let (before, behind) = messages.split_at(messages.len() / 2);
    let mut course = Course::live(dice, &page, before)?;
    let words = Lent::of(&page, &course.held).as_before();
    let mut both = Both::take_over(page, course.held.clone(), &words)?;
    // one half comes at once, the other when what waits may be booked
    let mut probes = course.probes(dice);
    let later = probes.split_off(probes.len() / 2);
    for message in probes.iter().chain(behind).chain(&later) {
        let reply = both.call(message)?;
        checks.pass();
        let row = course.row(message, &reply, &both.book);
        row.into_iter().for_each(|row| seen.add(row));
        course.since.take(message, &reply.to_string());
    }
    Ok(())
}

/// A book as it is held before the switch, and what the replies told until then and since.
struct Course {
    held: Book,
    before: History,
    since: History,
}

impl Course {
    /// These messages come under one of the earlier sets of rules.
    fn live(dice: &mut Dice, page: &OpeningPage, messages: &[Message]) -> Result<Course, String> {
        let rules = *dice.pick(&[Rules::First, Rules::NoSelfPayments]);
        let opened = Book::open(page).map_err(|code| format!("{page} is refused by {code}"))?;
        let mut held = opened.under(rules);
        let mut before = History::default();
        for message in messages {
            before.take(message, &held.call(message).to_string());
        }
        if rules == Rules::First {
            held.switch();
        }
        let since = History::default();
        Ok(Course { held, before, since })
    }

    /// For each account that has accepted a slip an ack that conflicts with the latest, in any order.
    fn probes(&self, dice: &mut Dice) -> Vec<Message> {
        let mut probes = Vec::new();
        for account in 0..self.held.accounts() {
            if let Some(slip) = self.before.latest(account as u8) {
                let value = if slip.value == 1 { 2 } else { slip.value - 1 };
                let seat = dice.below(self.held.seats() as u64) as u8;
                let slip = Slip { value, ..slip };
                probes.push(Message::Ack { seat, slip });
            }
        }
        dice.shuffle(&mut probes);
        probes
    }

    /// The row of a message since the switch, of its reply and of the book after it.
    fn row(&self, message: &Message, reply: &Reply, book: &Book) -> Option<&'static str> {
        let slip = match message {
            Message::Ack { slip, .. } => slip,
            _ => return None,
        };
        let since = self.since.latest(slip.account);
        let latest = since.or_else(|| self.before.latest(slip.account))?;
        if latest.number != slip.number || latest == *slip {
            return None;
        }
        let waits = |book: &Book| book.account(slip.account.into()).waiting.is_some();
        let late = *reply == Reply::PutForward { slip: latest };
        match (waits(&self.held), self.before.has_put_forward(slip), reply) {
            _ if since.is_some() => late.then_some(ACCEPTED_SINCE),
            (true, false, _) if late => Some(if waits(book) { WAITS } else { BOOKED_SINCE }),
            (true, true, Reply::Refused(8)) => Some(MARKED),
            (false, false, Reply::Refused(6)) => Some(BOOKED_BEFORE),
            _ => None,
        }
    }
}

/// A book that was taken over, in lent words, beside the second program's after its switch.
struct Both {
    page: OpeningPage,
    book: Book,
    lent: Lent,
}

impl Both {
    /// Takes over these words of the book, which has not switched to the newest rules yet.
    fn take_over(page: OpeningPage, mut book: Book, words: &HeldWords) -> Result<Both, String> {
        book.switch();
        let lent = Lent::taken_over(words);
        let due = Lent::of(&page, &book);
        same_words(&due, &lent).map_err(|what| format!("as it is taken over: {what}"))?;
        Ok(Both { page, book, lent })
    }

    /// The reply, which has to be the same of both; and the whole book after it, every word of it.
    fn call(&mut self, message: &Message) -> Result<Reply, String> {
        let reply = self.lent.call(&Sent::of(message));
        let due = self.book.call(message);
        if reply != told(&due) {
            return Err(format!("{message}: the reply is {reply:?} and not {due}"));
        }
        let words = same_words(&Lent::of(&self.page, &self.book), &self.lent);
        words.map_err(|what| format!("{message}: {what}"))?;
        Ok(due)
    }
}
