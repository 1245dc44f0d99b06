//! The known answers of documents 01 and 02, read from `known_answers.txt` in the folder of examples. Its head says how
//! they are written.

use crate::book::{Message, OpeningPage, Reply};
use crate::bundle;
use crate::written::{self, content, number, words};
use std::fs;
use std::path::{Path, PathBuf};

/// The file's name.
pub const FILE: &str = "known_answers.txt";

const WORDS: &str = "acks, sum, open, example, waiting, request, slip, ack, ruling, question";
const ACKS_FORM: &str = "acks n 6, f 1 -> 5";
const SUM_FORM: &str = "sum 1 2 -> 33";
const OPEN_FORM: &str = "open n 5, f 1, k 1 -> F 1 0";
const EXAMPLE_FORM: &str = "example tie";
const WAITING_FORM: &str = "waiting -> 2 3 4, or waiting -> none";
const REPLY_FORM: &str = "C, A, N, K 1, B 7, P 0 1 4 1 or R 12";

/// All of them, in the order of the file; of each sort there is at least one. A place is the file and the line.
#[derive(Clone, PartialEq, Eq, Debug, Default)]
pub struct Known {
    pub acks_needed: Vec<AcksNeeded>,
    pub sums: Vec<Sum>,
    /// the openings that are refused
    pub openings: Vec<Opening>,
    pub plays: Vec<Play>,
}

/// So many equal acks accept a slip, and one fewer does not.
#[derive(Clone, PartialEq, Eq, Debug)]
pub struct AcksNeeded {
    pub place: String,
    pub n: u8,
    pub f: u8,
    pub count: u8,
}

/// The bytes of a body and their sum.
#[derive(Clone, PartialEq, Eq, Debug)]
pub struct Sum {
    pub place: String,
    pub bytes: Vec<u8>,
    pub sum: u32,
}

/// The page is refused with this code.
#[derive(Clone, PartialEq, Eq, Debug)]
pub struct Opening {
    pub place: String,
    pub page: OpeningPage,
    pub code: u8,
}

/// A book just opened from this page, and what is done with it.
#[derive(Clone, PartialEq, Eq, Debug)]
pub struct Play {
    pub place: String,
    pub page: OpeningPage,
    /// the example whose messages come first, if there is one
    pub example: Option<Example>,
    /// at least one
    pub steps: Vec<Step>,
}

/// An example, which is a bundle and its text.
#[derive(Clone, PartialEq, Eq, Debug)]
pub struct Example {
    /// the file of the bundle's bytes
    pub bundle: PathBuf,
    /// what `daybook` writes for it, closing lines too
    pub text: String,
    pub messages: Vec<Message>,
}

#[derive(Clone, PartialEq, Eq, Debug)]
pub struct Step {
    pub place: String,
    pub asked: Asked,
}

/// What is asked of a book, and its answer.
#[derive(Clone, PartialEq, Eq, Debug)]
pub enum Asked {
    Call(Message, Reply),
    /// the accounts on the waiting list
    Waiting(Vec<u8>),
}

impl Known {
    /// Reads the file in this folder, and the examples that it names. Err names the file and the line, and what to do.
    pub fn read(folder: &Path) -> Result<Known, String> {
        let file = folder.join(FILE);
        Known::parse(&text_of(&file)?, folder)
    }

    /// The same, where this is the text of the file in this folder.
    pub fn parse(text: &str, folder: &Path) -> Result<Known, String> {
        let file = folder.join(FILE);
        let mut known = Known::default();
        for (line, text) in (1..).zip(text.lines()) {
            let place = format!("{}:{line}", file.display());
            let taken = content(text).and_then(|content| known.take(&place, &content, folder));
            taken.map_err(|what| format!("{place}: {what}"))?;
        }
        known.check_plays()?;
        known
            .check_sorts()
            .map_err(|what| format!("{}: {what}", file.display()))?;
        Ok(known)
    }

    /// Takes the content of one line; Err says what is wrong with it.
    fn take(&mut self, place: &str, content: &str, folder: &Path) -> Result<(), String> {
        let (asked, answer) = match content.split_once("->") {
            Some((asked, answer)) => (words(asked), Some(words(answer))),
            None => (words(content), None),
        };
        let place = place.to_string();
        match (&asked[..], answer.as_deref()) {
            ([], None) => {}
            (["acks", given @ ..], answer) => self.acks_needed.push(acks_needed(place, given, answer)?),
            (["sum", given @ ..], answer) => self.sums.push(sum(place, given, answer)?),
            (["open", given @ ..], Some(answer)) => self.openings.push(refused(place, given, answer)?),
            (["open", given @ ..], None) => self.plays.push(Play {
                place,
                page: written::opening(given)?,
                example: None,
                steps: Vec::new(),
            }),
            (["example", name], None) => self.plays.push(example(place, &folder.join(name))?),
            (["example", ..], _) => return Err(form("example", EXAMPLE_FORM)),
            (["waiting"], Some(accounts)) => self.add(place, Asked::Waiting(listed(accounts)?))?,
            (["waiting", ..], _) => return Err(form("waiting", WAITING_FORM)),
            ([word, given @ ..], answer) => self.add(place, call(word, given, answer)?)?,
            ([], Some(_)) => return Err(format!("nothing stands before `->`: the words are {WORDS}")),
        }
        Ok(())
    }

    /// A step of the book that was opened last.
    fn add(&mut self, place: String, asked: Asked) -> Result<(), String> {
        let play = self.plays.last_mut();
        let play = play.ok_or("no book is opened before this: put a line with `open` or `example` before it")?;
        play.steps.push(Step { place, asked });
        Ok(())
    }

    /// To each book something is done.
    fn check_plays(&self) -> Result<(), String> {
        match self.plays.iter().find(|play| play.steps.is_empty()) {
            None => Ok(()),
            Some(Play { place, .. }) => Err(format!(
                "{place}: nothing is asked of this book: put a message below it"
            )),
        }
    }

    /// Of each sort there is one, so that whoever plays them all plays something.
    fn check_sorts(&self) -> Result<(), String> {
        let steps = || self.plays.iter().flat_map(|play| &play.steps);
        let lists = steps().filter(|step| matches!(step.asked, Asked::Waiting(_)));
        let examples = self.plays.iter().filter(|play| play.example.is_some());
        for (form, count) in [
            (ACKS_FORM, self.acks_needed.len()),
            (SUM_FORM, self.sums.len()),
            (OPEN_FORM, self.openings.len()),
            (written::OPEN_FORM, self.plays.len() - examples.clone().count()),
            (EXAMPLE_FORM, examples.count()),
            (WAITING_FORM, lists.count()),
        ] {
            if count == 0 {
                return Err(format!(
                    "there is no line like `{form}`: put one in, as each sort has to be tried"
                ));
            }
        }
        Ok(())
    }
}

fn form(word: &str, form: &str) -> String {
    format!("`{word}` is written like this: {form}")
}

fn text_of(file: &Path) -> Result<String, String> {
    fs::read_to_string(file).map_err(|error| format!("{}: {error}; a text has to stand there", file.display()))
}

fn byte(name: &str, word: &str) -> Result<u8, String> {
    number(name, word, 0, u8::MAX.into()).map(|byte| byte as u8)
}

fn acks_needed(place: String, given: &[&str], answer: Option<&[&str]>) -> Result<AcksNeeded, String> {
    let (n, f, count) = match (given, answer) {
        (["n", n, "f", f], Some([count])) => (n, f, count),
        _ => return Err(form("acks", ACKS_FORM)),
    };
    Ok(AcksNeeded {
        place,
        n: byte("n", n)?,
        f: byte("f", f)?,
        count: number("the count of acks", count, 1, u8::MAX.into())? as u8,
    })
}

fn sum(place: String, given: &[&str], answer: Option<&[&str]>) -> Result<Sum, String> {
    let sum = match answer {
        Some([sum]) => number("the sum", sum, 0, u32::MAX)?,
        _ => return Err(form("sum", SUM_FORM)),
    };
    let bytes = given.iter().map(|word| byte("the byte", word));
    Ok(Sum {
        place,
        bytes: bytes.collect::<Result<_, String>>()?,
        sum,
    })
}

/// An opening that is refused.
fn refused(place: String, given: &[&str], answer: &[&str]) -> Result<Opening, String> {
    let page = written::opening(given)?;
    match answer {
        ["F", code, "0"] => Ok(Opening {
            place,
            page,
            code: number("the code", code, 1, 3)? as u8,
        }),
        _ => Err(form("open", OPEN_FORM)),
    }
}

/// The accounts of a waiting list.
fn listed(answer: &[&str]) -> Result<Vec<u8>, String> {
    match answer {
        [] => Err(form("waiting", WAITING_FORM)),
        ["none"] => Ok(Vec::new()),
        accounts => accounts.iter().map(|word| byte("the account", word)).collect(),
    }
}

/// A message and its reply.
fn call(word: &str, given: &[&str], answer: Option<&[&str]>) -> Result<Asked, String> {
    if !written::KIND_WORDS.contains(&word) {
        return Err(format!("unknown word `{word}`: the words are {WORDS}"));
    }
    let answer = answer.ok_or(format!("no reply: put it behind `->`, as {REPLY_FORM}"))?;
    Ok(Asked::Call(written::message(word, given)?, reply(answer)?))
}

/// A reply as `daybook` shows it.
fn reply(words: &[&str]) -> Result<Reply, String> {
    let any = |name, word| number(name, word, 0, u32::MAX);
    match words {
        ["C"] => Ok(Reply::Circulate),
        ["A"] => Ok(Reply::Ack),
        ["N"] => Ok(Reply::Noted),
        ["K", booked] => any("the count", booked).map(|booked| Reply::Accepted { booked }),
        ["B", balance] => any("the balance", balance).map(Reply::Balance),
        ["R", code] => byte("the code", code).map(Reply::Refused),
        ["P", slip @ ..] => written::slip("P", slip).map(|slip| Reply::PutForward { slip }),
        _ => Err(format!(
            "a reply is written like this: {REPLY_FORM}; and not `{}`",
            words.join(" ")
        )),
    }
}

/// The play of the example whose files have this path: NAME.page and NAME.txt.
fn example(place: String, path: &Path) -> Result<Play, String> {
    let (source, answers) = (path.with_extension("page"), path.with_extension("txt"));
    let bytes = written::parse(&text_of(&source)?)
        .map_err(|mistake| format!("{}:{}: {}", source.display(), mistake.line, mistake.what))?;
    let (page, messages) = bundle::read(&bytes)
        .map_err(|fault| format!("{} is refused with {}: name a sound one", source.display(), fault.code))?;
    let text = text_of(&answers)?;
    let steps = replies(&messages, &text, &answers)?;
    let bundle = path.with_extension("bundle");
    Ok(Play {
        place,
        page,
        example: Some(Example { bundle, text, messages }),
        steps,
    })
}

/// The messages of an example with the replies that its text shows, one line for each.
fn replies(messages: &[Message], text: &str, file: &Path) -> Result<Vec<Step>, String> {
    let mut lines = text.lines();
    let mut steps = Vec::new();
    for (entry, message) in (1..).zip(messages) {
        let place = format!("{}:{entry}", file.display());
        let words = words(lines.next().unwrap_or(""));
        let shown = match words[..] {
            [number, ref shown @ ..] if number == entry.to_string() => reply(shown),
            _ => Err(format!("there has to be the reply to entry {entry}")),
        };
        let reply = shown.map_err(|what| format!("{place}: {what}"))?;
        let asked = Asked::Call(*message, reply);
        steps.push(Step { place, asked });
    }
    Ok(steps)
}
