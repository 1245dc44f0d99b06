//! What the program `daybook` must print for a bundle.

use crate::book::{Book, Reply};
use crate::bundle::{self, Fault};
use std::fmt::{self, Write};

/// The reply letter and what it carries.
impl fmt::Display for Reply {
    fn fmt(&self, out: &mut fmt::Formatter) -> fmt::Result {
        match self {
            Reply::Circulate => write!(out, "C"),
            Reply::Ack => write!(out, "A"),
            Reply::Accepted { booked } => write!(out, "K {booked}"),
            Reply::PutForward { slip } => {
                write!(
                    out,
                    "P {} {} {} {}",
                    slip.account, slip.number, slip.value, slip.recipient
                )
            }
            Reply::Noted => write!(out, "N"),
            Reply::Balance(balance) => write!(out, "B {balance}"),
            Reply::Refused(code) => write!(out, "R {code}"),
        }
    }
}

/// The text for any bytes.
pub fn printed(bytes: &[u8]) -> String {
    replies(bytes).unwrap_or_else(|fault| format!("F {} {}\n", fault.code, fault.entry))
}

/// The replies and closing lines, or why the bundle or its opening is refused.
fn replies(bytes: &[u8]) -> Result<String, Fault> {
    let (page, messages) = bundle::read(bytes)?;
    let mut book = Book::open(&page).map_err(|code| Fault { code, entry: 0 })?;
    let mut text = String::new();
    for (entry, message) in (1..).zip(&messages) {
        let reply = book.call(message);
        add_line(&mut text, format_args!("{entry} {reply}"));
    }
    close(&mut text, &book);
    Ok(text)
}

/// Adds the closing lines.
pub fn close(text: &mut String, book: &Book) {
    for account in 0..book.accounts() {
        add_line(
            text,
            format_args!("= {account} {} {}", book.balance(account), book.current(account)),
        );
    }
}

fn add_line(text: &mut String, line: fmt::Arguments) {
    writeln!(text, "{line}").expect("a String takes every line");
}

/// Whether `text` is byte for byte the text for these bytes. Err names the first line that differs.
pub fn compare(bytes: &[u8], text: &[u8]) -> Result<(), String> {
    let due = printed(bytes);
    if text == due.as_bytes() {
        return Ok(());
    }
    let same = due.bytes().zip(text).take_while(|(due, found)| due == *found).count();
    let start = due[..same].rfind('\n').map_or(0, |place| place + 1);
    // the line of entry 1 is line 1
    let number = 1 + due[..start].lines().count();
    let line = |text: &[u8]| {
        let line = text[start..].split_inclusive(|byte| *byte == b'\n').next();
        String::from_utf8_lossy(line.unwrap_or_default()).into_owned()
    };
    Err(format!(
        "line {number} has to be {:?} and is {:?}",
        line(due.as_bytes()),
        line(text)
    ))
}
