//! The join of two bundles through the library, against the second program's.

use super::calls::{LIBRARY, SECOND};
use super::loads::page;
use super::measures::{best, instructions_of, row, MOST};
use crate::evidence::joined::{slip_bytes, told, Given, Words};
use crate::shared::daybook::{self, EVIDENCE};
use crate::shared::dice::Dice;
use reference::book::{Message, Slip};
use reference::bundle::write;
use reference::evidence::Evidence;

/// Each bundle has so many acks.
const ACKS: usize = 999;
/// Each ack of the first is looked at with each of the second.
const PAIRS: usize = ACKS * ACKS;
/// The names of the loads, none of which has a pair.
const NAMES: [&str; 2] = ["spread", "one slip"];

/// Sixteen seats each ack one slip of a number, account by account: the second bundle has the same acks in another
/// order, so that each ack of the first has one in the second with its seat, account and number.
fn spread() -> [Vec<Message>; 2] {
    let ack = |index: usize| {
        let (slip, seat) = (index / 16, index % 16);
        let slip = Slip {
            account: (slip % 8) as u8,
            number: (slip / 8) as u32 + 1,
            value: 1,
            recipient: ((slip + 1) % 8) as u8,
        };
        Message::Ack { seat: seat as u8, slip }
    };
    let first: Vec<Message> = (0..ACKS).map(ack).collect();
    let mut second = first.clone();
    Dice::new(0).shuffle(&mut second);
    [first, second]
}

/// One seat's ack of one slip, again and again, so that any two acks are equal in all fields.
fn one_slip() -> [Vec<Message>; 2] {
    let slip = Slip {
        account: 0,
        number: 1,
        value: 1,
        recipient: 1,
    };
    [(); 2].map(|()| vec![Message::Ack { seat: 0, slip }; ACKS])
}

/// What is joined.
fn given(name: &str) -> Result<Given, String> {
    let messages = match NAMES.iter().position(|known| *known == name) {
        Some(0) => spread(),
        Some(_) => one_slip(),
        None => return Err(format!("{name} is no load: take one of {}", NAMES.join(", "))),
    };
    let [first, second] = messages.map(|messages| write(&page([100; 32]), &messages));
    let ruled = Slip {
        account: 0,
        number: 1,
        value: 2,
        recipient: 1,
    };
    Ok(Given { first, second, ruled })
}

/// Joins through the library: its reply.
fn by_library(given: &Given) -> Words {
    let mut reply = [0; EVIDENCE];
    daybook::evidence(&given.first, &given.second, &slip_bytes(&given.ruled), &mut reply);
    reply
}

/// How many of so many joins by the library, or by the second program, find a pair.
fn found(by: &str, given: &Given, times: usize) -> Result<usize, String> {
    let finds: fn(&Given) -> bool = match by {
        LIBRARY => |given| by_library(given)[1] == 1,
        SECOND => |given| matches!(given.answer(), Evidence::Found { .. }),
        _ => return Err(format!("{by} has to be {LIBRARY} or {SECOND}")),
    };
    Ok((0..times).filter(|_| finds(given)).count())
}

/// Joins a load so often, so that callgrind can count that. Its bundles are made in any case.
pub fn play(by: &str, name: &str, times: &str) -> Result<(), String> {
    let times = times.parse().map_err(|_| format!("{times} is no number"))?;
    println!("{} found", found(by, &given(name)?, times)?);
    Ok(())
}

/// Prints the rows of both loads; `program` is the one that plays. Says where the ratio of instructions is above the
/// limit.
pub fn measure(program: &str) -> Result<Vec<String>, String> {
    println!("the join of two bundles of {ACKS} acks, with no pair, checks included:");
    let mut above = Vec::new();
    for name in NAMES {
        println!("{name}:");
        println!("    pairs  per pair        library  second program   ratio");
        let given = given(name)?;
        if given.answer() != Evidence::None || by_library(&given) != told(&Evidence::None, given.bundles()) {
            return Err(format!("{name}: one of the two finds a pair, or refuses the bundles"));
        }
        let counted = |by| instructions_of(&[program, "--join", by, name], 1);
        let ratio = row(PAIRS, "instructions", counted(LIBRARY)? as f64, counted(SECOND)? as f64);
        if ratio > MOST {
            above.push(format!("the join, {name}: {ratio:.2}"));
        }
        let timed = |by| best(|| (), |()| found(by, &given, 1).unwrap_or_default()).0.as_nanos() as f64;
        row(PAIRS, "nanoseconds", timed(LIBRARY), timed(SECOND));
    }
    Ok(above)
}
