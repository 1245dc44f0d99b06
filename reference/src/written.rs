//! The text form of a bundle, for people: one line per message, then the lines that damage the bundle on purpose.
//!
//! ```text
//! # a comment; commas and parentheses count as blanks, and each parenthesis has its partner in the line
//! open n 6, f 1, k 2, balances 10 3
//! slip (0, 1, 4, 1)
//! ack 0 (0, 1, 4, 1)
//! ruling (0, 1, 4, 1)
//! request (0, 1, 4, 1)
//! question 1
//! repeat 9 request (0, 1, 1, 0)
//! byte 10 = 6
//! cut 1
//! add 0 255
//! ```

use crate::book::{Message, OpeningPage, Slip};
use crate::bundle::{self, Fault, MOST_ENTRIES};
use crate::shown::refused_opening;
use std::fmt;

pub use crate::shown::shown;

/// The words for kinds 0 to 5.
pub const KIND_WORDS: [&str; 6] = ["open", "request", "slip", "ack", "ruling", "question"];
/// The other words that a line can begin with.
const OTHER_WORDS: [&str; 4] = ["repeat", "byte", "cut", "add"];

/// How the lines that are more than a word and its numbers are written.
pub(crate) const OPEN_FORM: &str = "open n 6, f 1, k 2, balances 10 3";
const REPEAT_FORM: &str = "repeat 9 request (0, 1, 1, 0)";
const BYTE_FORM: &str = "byte 10 = 6";

/// The byte order mark with which some editors begin a text.
const MARK: char = '\u{feff}';

/// A field's name and its highest value.
type Field = (&'static str, u32);
const BYTE: u32 = u8::MAX as u32;
const SEAT: Field = ("seat", BYTE);
const ACCOUNT: Field = ("account", BYTE);
const NUMBER: Field = ("number", u32::MAX);
const VALUE: Field = ("value", u32::MAX);
const RECIPIENT: Field = ("recipient", BYTE);

/// What is wrong with a text, and in which line.
#[derive(Clone, PartialEq, Eq, Debug)]
pub struct Mistake {
    pub line: usize,
    pub what: String,
}

/// The bundle that a text describes.
#[derive(Clone, PartialEq, Eq, Debug)]
pub struct Packed {
    pub bytes: Vec<u8>,
    /// the line of an `open` that opens no book, and why; it is packed as it is
    pub warning: Option<Mistake>,
}

impl fmt::Display for OpeningPage {
    fn fmt(&self, out: &mut fmt::Formatter) -> fmt::Result {
        write!(out, "open n {}, f {}, k {}", self.n, self.f, self.k)?;
        // at least k balances, and as many more as it takes to show all that are not 0
        let last = self
            .balances
            .iter()
            .rposition(|balance| *balance != 0)
            .map_or(0, |place| place + 1);
        let count = last.max(usize::from(self.k)).min(self.balances.len());
        for (account, balance) in self.balances[..count].iter().enumerate() {
            let before = if account == 0 { ", balances " } else { " " };
            write!(out, "{before}{balance}")?;
        }
        Ok(())
    }
}

impl fmt::Display for Message {
    fn fmt(&self, out: &mut fmt::Formatter) -> fmt::Result {
        match self {
            Message::Request(slip) => write!(out, "request {slip}"),
            Message::Slip(slip) => write!(out, "slip {slip}"),
            Message::Ack { seat, slip } => write!(out, "ack {seat} {slip}"),
            Message::Ruling(slip) => write!(out, "ruling {slip}"),
            Message::Question { account } => write!(out, "question {account}"),
        }
    }
}

/// The text form of a sound bundle; `parse` gives the same bytes again.
pub fn written(bytes: &[u8]) -> Result<String, Fault> {
    let (page, messages) = bundle::read(bytes)?;
    let mut text = format!("{page}\n");
    for message in &messages {
        text += &format!("{message}\n");
    }
    Ok(text)
}

/// The bytes of the bundle that this text describes.
pub fn parse(text: &str) -> Result<Vec<u8>, Mistake> {
    packed(text).map(|packed| packed.bytes)
}

/// The bundle that this text describes. A byte order mark in front of it is skipped.
pub fn packed(text: &str) -> Result<Packed, Mistake> {
    let mut draft = Draft {
        page: None,
        messages: Vec::new(),
        damaged: None,
    };
    let (mut line, mut warning) = (0, None);
    for text in text.strip_prefix(MARK).unwrap_or(text).lines() {
        line += 1;
        let before = draft.page.is_some();
        let taken = content(text).and_then(|content| draft.take(&words(&content)));
        taken.map_err(|what| Mistake { line, what })?;
        if let (false, Some(page)) = (before, &draft.page) {
            warning = refused_opening(page).map(|what| Mistake { line, what });
        }
    }
    let bytes = draft.bytes().map_err(|what| Mistake {
        line: line.max(1),
        what,
    })?;
    Ok(Packed { bytes, warning })
}

/// A line without its comment, and with blanks around each `=`; each parenthesis in it has its partner.
pub(crate) fn content(line: &str) -> Result<String, String> {
    let content = line.split('#').next().unwrap_or("");
    if content.contains(MARK) {
        return Err("a byte order mark, which only the first line may begin with: take it out".to_string());
    }
    let mut open = 0;
    for c in content.chars() {
        match c {
            '(' => open += 1,
            ')' if open == 0 => return Err("a `)` closes no `(` of this line: put one in, or take it out".to_string()),
            ')' => open -= 1,
            _ => {}
        }
    }
    if open > 0 {
        return Err("a `(` is not closed in this line: put a `)` in, or take it out".to_string());
    }
    Ok(content.replace('=', " = "))
}

/// The words of a content: commas and parentheses count as blanks.
pub(crate) fn words(content: &str) -> Vec<&str> {
    let blank = |c: char| c.is_whitespace() || ",()".contains(c);
    content.split(blank).filter(|word| !word.is_empty()).collect()
}

/// What the lines so far describe.
struct Draft {
    page: Option<OpeningPage>,
    messages: Vec<Message>,
    /// the bundle's bytes, once there is a line that damages them
    damaged: Option<Vec<u8>>,
}

impl Draft {
    /// Takes the words of one line; Err says what is wrong with it.
    fn take(&mut self, words: &[&str]) -> Result<(), String> {
        match words {
            [] => Ok(()),
            ["open", given @ ..] => self.open(given),
            ["repeat", times, word, given @ ..] => self.add_message(
                number("repeat's count", times, 1, MOST_ENTRIES as u32 - 1)?,
                word,
                given,
            ),
            ["repeat", ..] => Err(format!("`repeat` is written like this: {REPEAT_FORM}")),
            ["byte", place, "=", value] => self.change_byte(place, value),
            ["byte", ..] => Err(format!("`byte` is written like this: {BYTE_FORM}")),
            ["cut", given @ ..] => self.cut(given),
            ["add", given @ ..] => self.add_bytes(given),
            [word, given @ ..] => self.add_message(1, word, given),
        }
    }

    fn open(&mut self, given: &[&str]) -> Result<(), String> {
        if self.page.is_some() {
            return Err("a second `open`: a bundle has one opening page".to_string());
        }
        self.page = Some(opening(given)?);
        Ok(())
    }

    fn add_message(&mut self, times: u32, word: &str, given: &[&str]) -> Result<(), String> {
        let message = message(word, given)?;
        if self.page.is_none() {
            return Err(format!(
                "there is no `open` line before this `{word}`; it is written like this: {OPEN_FORM}"
            ));
        }
        if self.damaged.is_some() {
            return Err("a message behind a line with `byte`, `cut` or `add`: those come last".to_string());
        }
        let count = self.messages.len() + times as usize;
        if count >= MOST_ENTRIES {
            return Err(format!(
                "too many messages: {count} with this line, and a bundle has at most 999"
            ));
        }
        self.messages.resize(count, message);
        Ok(())
    }

    /// `byte PLACE = VALUE`
    fn change_byte(&mut self, place: &str, value: &str) -> Result<(), String> {
        let bytes = self.bytes_to_damage()?;
        let place = number("the place", place, 0, u32::MAX)? as usize;
        let value = number("the byte", value, 0, BYTE)? as u8;
        let length = bytes.len();
        let byte = bytes.get_mut(place);
        *byte.ok_or(format!(
            "place {place} is behind the end: the bundle has {length} bytes, from place 0"
        ))? = value;
        Ok(())
    }

    /// `cut COUNT`
    fn cut(&mut self, given: &[&str]) -> Result<(), String> {
        let bytes = self.bytes_to_damage()?;
        let [count] = numbers("cut", given, [("count", u32::MAX)])?;
        let length = bytes.len();
        let left = length.checked_sub(count as usize);
        bytes.truncate(left.ok_or(format!("cannot cut {count} bytes: the bundle has {length}"))?);
        Ok(())
    }

    /// `add BYTE...`
    fn add_bytes(&mut self, given: &[&str]) -> Result<(), String> {
        let bytes = self.bytes_to_damage()?;
        if given.is_empty() {
            return Err("too few numbers (0): `add` takes one byte or more".to_string());
        }
        for byte in given {
            bytes.push(number("the byte", byte, 0, BYTE)? as u8);
        }
        Ok(())
    }

    /// The bundle's bytes, which no message can join from now on.
    fn bytes_to_damage(&mut self) -> Result<&mut Vec<u8>, String> {
        let bytes = self.bytes()?;
        Ok(self.damaged.insert(bytes))
    }

    fn bytes(&mut self) -> Result<Vec<u8>, String> {
        if let Some(bytes) = self.damaged.take() {
            return Ok(bytes);
        }
        let page = self
            .page
            .as_ref()
            .ok_or(format!("there is no `open` line; it is written like this: {OPEN_FORM}"))?;
        Ok(bundle::write(page, &self.messages))
    }
}

/// The opening page from what stands behind `open`.
pub(crate) fn opening(given: &[&str]) -> Result<OpeningPage, String> {
    let form = format!("`open` is written like this: {OPEN_FORM}");
    let (n, f, k, rest) = match given {
        ["n", n, "f", f, "k", k, rest @ ..] => (n, f, k, rest),
        _ => return Err(form),
    };
    let given_balances = match rest {
        [] => rest,
        ["balances", balances @ ..] => balances,
        _ => return Err(form),
    };
    let mut balances = [0; 32];
    if given_balances.len() > balances.len() {
        return Err(format!(
            "too many balances ({}): `open` takes at most 32",
            given_balances.len()
        ));
    }
    for (balance, given) in balances.iter_mut().zip(given_balances) {
        *balance = number("a balance", given, 0, u32::MAX)?;
    }
    let byte = |name, given| number(name, given, 0, BYTE).map(|byte| byte as u8);
    Ok(OpeningPage {
        n: byte("n", n)?,
        f: byte("f", f)?,
        k: byte("k", k)?,
        balances,
    })
}

/// The slip from the four numbers behind a word.
pub(crate) fn slip(word: &str, given: &[&str]) -> Result<Slip, String> {
    numbers(word, given, [ACCOUNT, NUMBER, VALUE, RECIPIENT]).map(slip_of)
}

/// The message from its word and what stands behind it.
pub(crate) fn message(word: &str, given: &[&str]) -> Result<Message, String> {
    let slip = || slip(word, given);
    match word {
        "request" => Ok(Message::Request(slip()?)),
        "slip" => Ok(Message::Slip(slip()?)),
        "ack" => {
            let [seat, slip @ ..] = numbers(word, given, [SEAT, ACCOUNT, NUMBER, VALUE, RECIPIENT])?;
            Ok(Message::Ack {
                seat: seat as u8,
                slip: slip_of(slip),
            })
        }
        "ruling" => Ok(Message::Ruling(slip()?)),
        "question" => {
            let [account] = numbers(word, given, [ACCOUNT])?;
            Ok(Message::Question { account: account as u8 })
        }
        _ if KIND_WORDS.iter().chain(&OTHER_WORDS).any(|known| *known == word) => {
            Err(format!("`repeat` takes a message, and `{word}` is none"))
        }
        _ => Err(format!(
            "unknown word `{word}`: the words are {}, {}",
            KIND_WORDS.join(", "),
            OTHER_WORDS.join(", ")
        )),
    }
}

/// The slip with these four numbers, of which `numbers` has checked that they fit.
fn slip_of([account, number, value, recipient]: [u32; 4]) -> Slip {
    Slip {
        account: account as u8,
        number,
        value,
        recipient: recipient as u8,
    }
}

/// The numbers behind a word that takes these fields, no fewer and no more.
fn numbers<const N: usize>(word: &str, given: &[&str], fields: [Field; N]) -> Result<[u32; N], String> {
    if given.len() != N {
        let few = if given.len() < N { "few" } else { "many" };
        let names: Vec<&str> = fields.iter().map(|(name, _)| *name).collect();
        return Err(format!(
            "too {few} numbers ({}): `{word}` takes {}",
            given.len(),
            names.join(", ")
        ));
    }
    let mut numbers = [0; N];
    for (place, (name, most)) in fields.iter().enumerate() {
        numbers[place] = number(name, given[place], 0, *most)?;
    }
    Ok(numbers)
}

/// The decimal number in this word, which has to lie in its field's range.
pub(crate) fn number(name: &str, word: &str, least: u32, most: u32) -> Result<u32, String> {
    let digits = word.bytes().all(|byte| byte.is_ascii_digit());
    let number = word
        .parse()
        .ok()
        .filter(|number| digits && (least..=most).contains(number));
    number.ok_or(format!(
        "{name} has to be a number from {least} to {most} and is `{word}`"
    ))
}
