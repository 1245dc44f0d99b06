//! Any bytes shown as a bundle, entry by entry, for people.

use crate::book::{Book, OpeningPage};
use crate::bundle::{self, Entry, Fault, Wrong, BODY_LENGTHS, MOST_ENTRIES, OPENING};
use crate::daybook;
use crate::written::KIND_WORDS;

/// What a tool says that refuses a bundle.
pub const ADVICE: &str = "`./bundle.sh show` says what is wrong";

/// An entry with what can be said of it.
struct Row {
    number: usize,
    entry: Entry,
    /// the body in the text form, or a word for why there is none
    body: String,
    /// the code and what is wrong with this entry, 14 or 16
    wrong: Option<(u8, String)>,
}

/// Any bytes, entry by entry: first whether the bundle is sound, or its fault; then the entries as far as they can be
/// read; and, if the book opens, the reply to each message and the closing lines.
pub fn shown(bytes: &[u8]) -> String {
    let rows = rows(bytes);
    let fault = bundle::check(bytes).err();
    let mut text = match fault {
        Some(fault) => refused(bytes, &rows, fault),
        None => sound(bytes, rows.len()),
    };
    if !rows.is_empty() {
        text += "  entry  kind      seat  start         sum  body\n";
    }
    let (replies, closing) = played(bytes).unwrap_or_default();
    let width = rows.iter().skip(1).map(|row| row.body.len()).max().unwrap_or(0);
    // 13 and 15 are no single entry's fault
    let decides = fault
        .filter(|fault| [14, 16].contains(&fault.code))
        .map(|fault| fault.entry);
    for row in &rows {
        let reply = row.number.checked_sub(1).and_then(|message| replies.get(message));
        let behind = match &row.wrong {
            Some((code, what)) => format!("<- {code}: {what}"),
            None => reply.map_or(String::new(), |reply| format!("-> {reply}")),
        };
        text += &line(row, decides == Some(row.number), width, &behind);
    }
    text + &closing
}

/// The entries whose 8 bytes are there. A body is looked for where the one before it ends or, behind an entry of an
/// unknown kind, where its own entry says.
fn rows(bytes: &[u8]) -> Vec<Row> {
    let stated = bundle::stated_entries(bytes).unwrap_or(0);
    let whole = bytes.len().saturating_sub(2) / 8;
    let mut place = Some(bundle::bodies_start(stated));
    let mut rows = Vec::new();
    for number in 0..stated.min(whole).min(MOST_ENTRIES) {
        let entry = bundle::entry(bytes, number);
        let start = place.unwrap_or_else(|| usize::from(entry.start));
        place = BODY_LENGTHS.get(usize::from(entry.kind)).map(|length| start + length);
        let body = place.and_then(|end| bytes.get(start..end));
        let wrong = wrong_entry(&entry, number, start).or_else(|| wrong_sum(&entry, number, body?));
        rows.push(Row {
            number,
            entry,
            body: body_text(&entry, body),
            wrong,
        });
    }
    rows
}

/// The body in the text form.
fn body_text(entry: &Entry, body: Option<&[u8]>) -> String {
    match body {
        None => "(not there)".to_string(),
        Some(body) if entry.kind == OPENING => bundle::read_opening(body).to_string(),
        Some(body) => bundle::read_message(entry.kind, entry.seat, body).to_string(),
    }
}

/// 14 and why, if the entry is wrong.
fn wrong_entry(entry: &Entry, number: usize, start: usize) -> Option<(u8, String)> {
    let place = bundle::bodies_start(number);
    let what = match entry.wrong(number, start)? {
        Wrong::Kind => format!("its kind is {} and not 0 to 5 (byte {place})", entry.kind),
        Wrong::Misplaced if number == 0 => format!("its kind is {} and not 0 (byte {place})", entry.kind),
        Wrong::Misplaced => format!("its kind is 0, which only entry 0 has (byte {place})"),
        Wrong::Seat => format!(
            "its seat is {} and not 0, as it is no ack (byte {})",
            entry.seat,
            place + 1
        ),
        Wrong::Start => {
            format!(
                "its start is {} and not {start} (bytes {} and {})",
                entry.start,
                place + 2,
                place + 3
            )
        }
    };
    Some((14, what))
}

/// 16 and why, if the sum is wrong.
fn wrong_sum(entry: &Entry, number: usize, body: &[u8]) -> Option<(u8, String)> {
    let (place, sum) = (bundle::bodies_start(number), bundle::sum(body));
    if sum == entry.sum {
        return None;
    }
    let what = format!(
        "its sum is {} and its body's is {sum} (bytes {} to {})",
        entry.sum,
        place + 4,
        place + 7
    );
    Some((16, what))
}

/// The first line for a bundle that is refused.
fn refused(bytes: &[u8], rows: &[Row], fault: Fault) -> String {
    let length = bytes.len();
    let why = match (fault.code, &rows.get(fault.entry)) {
        (13, _) => wrong_contents(bytes),
        (15, _) => {
            let bodies: usize = rows.iter().map(|row| BODY_LENGTHS[usize::from(row.entry.kind)]).sum();
            let end = bundle::bodies_start(rows.len()) + bodies;
            format!("the last body ends at byte {end} and the bundle at byte {length}")
        }
        (_, row) => row
            .and_then(|row| row.wrong.as_ref())
            .map_or(String::new(), |(_, what)| what.clone()),
    };
    format!("refused with {} at entry {}: {why}\n", fault.code, fault.entry)
}

/// Why a bundle is refused with 13.
fn wrong_contents(bytes: &[u8]) -> String {
    let length = bytes.len();
    match bundle::stated_entries(bytes) {
        None => format!("m takes 2 bytes and the bundle has {length}"),
        Some(m) if !(1..=MOST_ENTRIES).contains(&m) => format!("m is {m} and not 1 to 1000 (bytes 0 and 1)"),
        Some(m) => format!(
            "m is {m}, so the contents end at byte {}, and the bundle at byte {length}",
            bundle::bodies_start(m)
        ),
    }
}

/// The first line for a bundle that is not refused, and a second one if its opening is.
fn sound(bytes: &[u8], m: usize) -> String {
    let entries = if m == 1 { "entry" } else { "entries" };
    let mut text = format!("sound: {m} {entries}, {} bytes\n", bytes.len());
    if let Some(why) = bundle::read(bytes).ok().and_then(|(page, _)| refused_opening(&page)) {
        text += &format!("{why}\n");
    }
    text
}

/// By which code the page is refused and why, if it opens no book.
pub(crate) fn refused_opening(page: &OpeningPage) -> Option<String> {
    let code = Book::open(page).err()?;
    let why = wrong_opening(page, code);
    Some(format!("the opening is refused with {code}: {why}"))
}

/// Why an opening is refused with this code.
fn wrong_opening(page: &OpeningPage, code: u8) -> String {
    let OpeningPage { n, f, k, .. } = page;
    match code {
        1 if !(1..=16).contains(n) => format!("n is {n} and not 1 to 16"),
        1 => format!("f is {f}, and 5 times f is not below n, which is {n}"),
        2 if !(1..=32).contains(k) => format!("k is {k} and not 1 to 32"),
        2 => format!("k is {k}, and a balance behind the last account is not 0"),
        _ => format!("the opening sum is {} and not at most {}", page.sum(), u32::MAX),
    }
}

/// The reply to each message, where a late P, which looks like any other, is told as such; and the closing lines. None
/// if the bundle or its opening is refused.
fn played(bytes: &[u8]) -> Option<(Vec<String>, String)> {
    let (page, messages) = bundle::read(bytes).ok()?;
    let mut book = Book::open(&page).ok()?;
    let mut replies = Vec::new();
    for message in &messages {
        let late = book.late(message).is_some();
        let told = if late { ", late: the slip that was accepted" } else { "" };
        replies.push(format!("{}{told}", book.call(message)));
    }
    let mut closing = String::new();
    daybook::close(&mut closing, &book);
    Some((replies, closing))
}

/// A row's line; the entry whose fault decides is marked in front.
fn line(row: &Row, decides: bool, width: usize, behind: &str) -> String {
    let mark = if decides { '>' } else { ' ' };
    let Entry { kind, seat, start, sum } = row.entry;
    let word = KIND_WORDS
        .get(usize::from(kind))
        .map_or(format!("kind {kind}"), |word| word.to_string());
    let (number, body) = (row.number, &row.body);
    let line = format!("{mark} {number:>5}  {word:<8}  {seat:>4}  {start:>5}  {sum:>10}  {body:<width$}  {behind}");
    format!("{}\n", line.trim_end())
}
