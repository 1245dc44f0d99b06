//! The writer of bundles, held to documents 01 and 02 and to the second program: the examples, the limits, lists of
//! messages with any fields, and records that are malformed.

use crate::bundles::trial::{self, caught};
use crate::bundles::{known, openings, wild};
use crate::shared::checks::Checks;
use crate::shared::daybook::Written;
use crate::shared::dice::Dice;
use crate::shared::tallies::Tallies;
use crate::writer::records::{first_wrong, length, met, records, tried, written_again, RECORD};
use reference::book::{Book, Message, OpeningPage, Slip};
use reference::bundle::{self, read_message, read_opening, ACK, QUESTION, REQUEST};
use reference::written::KIND_WORDS;
use std::path::Path;

/// The columns of the table.
const COLUMNS: [&str; 2] = ["lists", "malformed"];
/// So many random lists, one in so many of which also goes through the program, and so many malformed ones.
const LISTS: u64 = 3_000;
const PROGRAM_EACH: u64 = 50;
const MALFORMED: u64 = 6_000;
/// The dice of each come from the seed with this bit changed: neither shares them with the random bundles.
const LISTS_BIT: u64 = 1 << 62;
const MALFORMED_BIT: u64 = 1 << 63;

const T: Slip = Slip {
    account: 0,
    number: 1,
    value: 4,
    recipient: 1,
};
const REQUESTED: Message = Message::Request(T);
const ASKED: Message = Message::Question { account: 1 };

fn page() -> OpeningPage {
    OpeningPage::of(6, 1, &[10, 3])
}

/// Counts a call of the writer with a buffer of this length.
fn check(checks: &mut Checks, dice: &mut Dice, what: &str, records: &[u8], room: usize) {
    checks.same(what, tried(dice, &page(), records, room).map(drop), Ok(()));
}

// What is the same in every run.

/// Every example that is sound: what is read of it is written out as its bytes.
pub fn examples(checks: &mut Checks, dice: &mut Dice, folder: &str) {
    let mut sound = 0;
    for path in known::bundles(Path::new(folder)) {
        let bytes = std::fs::read(&path).expect("a bundle that can be read");
        let written = written_again(dice, &bytes);
        sound += u32::from(written == Ok(true));
        let name = format!("the example {}", path.file_stem().unwrap_or_default().to_string_lossy());
        trial::count(checks, &name, &bytes, written.map(drop));
    }
    checks.that("more than 15 examples are sound and written out", sound > 15);
}

/// Replies at the limits and of calls that meet more than one refusal, said without the second program.
pub fn known_replies(checks: &mut Checks, dice: &mut Dice) {
    let mut reply = |wanted: Written, what, records: &[u8], room| {
        let reply = tried(dice, &page(), records, room).map(|(reply, _)| reply);
        checks.same(what, reply, Ok(wanted));
    };
    let requests = |count| records(&vec![REQUESTED; count]);
    let questions = |count| records(&vec![ASKED; count]);
    let (wrong, piece) = (&[6; RECORD][..], &[1; 5][..]);

    reply(Ok(141), "no record", &[], 141);
    reply(Ok(141), "no record and more room", &[], 500);
    reply(Err((19, 0)), "no record, a byte too few", &[], 140);
    reply(Ok(159), "a request", &requests(1), 159);
    reply(Err((19, 0)), "a request, a byte too few", &requests(1), 158);
    reply(Ok(150), "a question", &questions(1), 150);
    reply(Err((19, 0)), "a question, a byte too few", &questions(1), 149);
    reply(Ok(9_132), "999 questions", &questions(999), 9_132);
    reply(Ok(18_123), "999 requests", &requests(999), 18_123);
    reply(Err((19, 0)), "999 requests, a byte too few", &requests(999), 18_122);
    reply(Err((18, 0)), "1,000 requests with room", &requests(1_000), 18_141);
    reply(Err((18, 0)), "1,000 requests, no room", &requests(1_000), 0);
    reply(Err((15, 0)), "a piece alone", piece, 500);

    // 18, 14, 15, 19 is the order
    let all = [wrong, &questions(999), piece].concat();
    reply(Err((18, 0)), "1,000 records, one wrong, a piece, no room", &all, 0);
    let last = [&questions(998), wrong, piece].concat();
    reply(Err((14, 999)), "the last of 999 wrong, a piece, no room", &last, 0);
    let two = [&requests(1), wrong, wrong].concat();
    reply(Err((14, 2)), "the second and the third wrong", &two, 500);
    let whole = [&questions(999), piece].concat();
    reply(Err((15, 0)), "999 records and a piece, no room", &whole, 0);
    reply(Err((15, 0)), "999 records and a piece with room", &whole, 18_123);
    reply(Err((19, 0)), "a record, no room", &questions(1), 0);
}

/// So many records, at the limit and far beyond it, where a count or a length in 16 bits would begin again; and a
/// buffer of such a length.
pub fn counts(checks: &mut Checks, dice: &mut Dice) {
    for count in [0, 1, 998, 999, 1_000, 1_001, 5_462, 65_535, 65_536, 66_000] {
        for message in [REQUESTED, ASKED] {
            let records = records(&vec![message; count]);
            let length = length(&records);
            for room in [0, length - 1, length, length + 9, 65_536] {
                check(checks, dice, &format!("{count} records"), &records, room);
            }
        }
    }
}

/// Every kind with every seat, as the only record; and the bytes of a question that are not read.
pub fn single_records(checks: &mut Checks, dice: &mut Dice) {
    for kind in 0..=255 {
        for seat in 0..=255 {
            let mut record = records(&[REQUESTED]);
            record[..2].copy_from_slice(&[kind, seat]);
            let room = length(&record);
            check(checks, dice, &format!("kind {kind}, seat {seat}"), &record, room);
        }
    }
    for place in 3..RECORD {
        for byte in 0..=255 {
            let mut record = records(&[ASKED]);
            record[place] = byte;
            let written = tried(dice, &page(), &record, 150).map(|(_, buffer)| buffer);
            let wanted = bundle::write(&page(), &[ASKED]);
            checks.same(&format!("a question with byte {place} {byte}"), written, Ok(wanted));
        }
    }
}

/// Each record of a full list is wrong, and the last one too: the lowest is named.
pub fn lowest_wrong(checks: &mut Checks, dice: &mut Dice) {
    for place in 0..999 {
        let mut records = records(&[REQUESTED; 999]);
        for wrong in [place, 998] {
            // a kind that there is not, or a seat
            let bytes = *dice.pick(&[[0, 0], [6, 0], [255, 9], [REQUEST, 1], [QUESTION, 255]]);
            records[RECORD * wrong..RECORD * wrong + 2].copy_from_slice(&bytes);
        }
        let room = *dice.pick(&[0, 141, 18_123]);
        check(checks, dice, &format!("record {place} is wrong"), &records, room);
    }
}

/// A last piece of 1 to 11 bytes behind whole records, whatever it begins with.
pub fn last_pieces(checks: &mut Checks, dice: &mut Dice) {
    for count in [0, 1, 2, 998, 999, 1_000] {
        for size in 1..RECORD {
            for first in [0, REQUEST, QUESTION, 6, 255] {
                let mut records = records(&vec![ASKED; count]);
                records.extend(vec![first; size]);
                let room = length(&records);
                for room in [0, room, room + 30] {
                    let what = format!("{count} records and {size} bytes of {first}");
                    check(checks, dice, &what, &records, room);
                }
            }
        }
    }
}

// What is made of the seed.

/// Lists of messages and malformed records, and the table of what was seen.
pub fn random(checks: &mut Checks, seed: u64, program: &str) {
    let mut tallies = Tallies::of_writing(&COLUMNS);
    for index in 1..=LISTS {
        let program = (index % PROGRAM_EACH == 0).then_some(program);
        let mut dice = Dice::of(seed ^ LISTS_BIT, index);
        let (page, messages) = list(&mut dice);
        let name = format!("list {index} of seed {seed}");
        let bytes = bundle::write(&page, &messages);
        let outcome = caught(|| try_list(&mut dice, &mut tallies, &page, &messages, program));
        trial::count(checks, &name, &bytes, outcome.and_then(|outcome| outcome));
    }
    for index in 1..=MALFORMED {
        let mut dice = Dice::of(seed ^ MALFORMED_BIT, index);
        let outcome = caught(|| try_malformed(&mut dice, &mut tallies)).and_then(|outcome| outcome);
        checks.same(&format!("malformed records {index} of seed {seed}"), outcome, Ok(()));
    }
    tallies.table(checks);
}

/// A page, often a refused one, and 0 to 999 messages with any fields.
fn list(dice: &mut Dice) -> (OpeningPage, Vec<Message>) {
    let page = if dice.once_in(4) {
        read_opening(&dice.bytes(131))
    } else {
        openings::wild(dice)
    };
    let count = match dice.below(16) {
        0 => *dice.pick(&[0, 1, 998, 999]),
        1..=3 => dice.below(1_000),
        _ => dice.below(61),
    };
    (page, (0..count).map(|_| message(dice)).collect())
}

/// A message whose fields are often in range, or are anything.
fn message(dice: &mut Dice) -> Message {
    if dice.once_in(2) {
        return wild::message(dice);
    }
    let kind = dice.within(REQUEST.into(), QUESTION.into()) as u8;
    read_message(kind, dice.byte(), &dice.bytes(10))
}

/// The records of messages; what is not read of a question's is anything.
fn any_records(dice: &mut Dice, messages: &[Message]) -> Vec<u8> {
    let mut records = records(messages);
    for record in records.chunks_exact_mut(RECORD).filter(|record| record[0] == QUESTION) {
        record[3..].copy_from_slice(&dice.bytes(9));
    }
    records
}

/// A list into buffers that are too short, just long enough and longer; then what is written is read back.
fn try_list(
    dice: &mut Dice,
    tallies: &mut Tallies,
    page: &OpeningPage,
    messages: &[Message],
    program: Option<&str>,
) -> Result<(), String> {
    let records = any_records(dice, messages);
    let length = length(&records);
    let (short, more) = (dice.place(length), dice.place(300));
    let mut written = Vec::new();
    for room in [short, length - 1, length, length + 1, length + 1 + more] {
        let (reply, buffer) = tried(dice, page, &records, room)?;
        tally(tallies, 0, &records, room, reply);
        written = buffer;
    }
    written.truncate(length);
    tally_list(tallies, page, &written);
    if bundle::read(&written) != Ok((page.clone(), messages.to_vec())) {
        return Err("what is written is not read as that page and that list".to_string());
    }
    trial::text_tried(&written, program).1
}

/// Counts a reply, and with it the cause of a 14 and each refusal that stands back behind the one that is due.
fn tally(tallies: &mut Tallies, column: usize, records: &[u8], room: usize, reply: Written) {
    let code = match reply {
        Ok(_) => return tallies.add(column, "a length"),
        Err((code, _)) => code,
    };
    tallies.add(column, &code.to_string());
    if let (14, Some((_, cause))) = (code, first_wrong(records)) {
        tallies.add(column, cause);
    }
    for (behind, _) in &met(records, room)[1..] {
        tallies.add(column, &format!("{code} before {behind}"));
    }
}

/// Counts what is in a bundle that was written.
fn tally_list(tallies: &mut Tallies, page: &OpeningPage, written: &[u8]) {
    let opens = Book::open(page).is_ok();
    tallies.add(0, if opens { "page opens" } else { "page refused" });
    let m = bundle::stated_entries(written).unwrap_or(0);
    for number in 1..m {
        let kind = bundle::entry(written, number).kind;
        tallies.add(0, KIND_WORDS[usize::from(kind)]);
    }
    match m {
        1 => tallies.add(0, "0 messages"),
        1_000 => tallies.add(0, "999 messages"),
        _ => {}
    }
}

/// Records of which up to three are changed, perhaps more than there may be, and perhaps with a last piece.
fn try_malformed(dice: &mut Dice, tallies: &mut Tallies) -> Result<(), String> {
    let few = dice.below(12) as usize;
    let count = *dice.pick(&[few, few, few, few, few, 999, 1_000, 1_000 + few]);
    let messages: Vec<Message> = (0..count).map(|_| message(dice)).collect();
    let mut records = any_records(dice, &messages);
    for _ in 0..dice.below(4).min(count as u64) {
        change_record(dice, &mut records);
    }
    if dice.once_in(2) {
        let size = 1 + dice.place(RECORD - 1);
        records.extend(dice.bytes(size));
    }
    let length = length(&records);
    let room = *dice.pick(&[0, length - 1, length, length + 40]);
    let page = openings::wild(dice);
    let (reply, _) = tried(dice, &page, &records, room)?;
    tally(tallies, 1, &records, room, reply);
    Ok(())
}

/// A record takes another kind or another seat, which may be as good.
fn change_record(dice: &mut Dice, records: &mut [u8]) {
    let place = RECORD * dice.place(records.len() / RECORD);
    let any = dice.byte();
    if dice.once_in(2) {
        records[place] = *dice.pick(&[0, ACK, QUESTION, 6, 255, any]);
    } else {
        records[place + 1] = *dice.pick(&[0, 1, 255, any]);
    }
}
