//! Damaged bundles: one to three changes to a sound one, and what is off because of them perhaps put right again, so
//! that each of the codes 13 to 16 comes out, and repaired damage as well.

use crate::bundles::wild;
use crate::messages::ledgers;
use crate::shared::dice::Dice;
use reference::bundle;

/// The lengths of the bodies of kinds 0 to 5.
const LENGTHS: [usize; 6] = [131, 10, 10, 10, 10, 1];

pub fn damaged(dice: &mut Dice) -> Vec<u8> {
    // now and then so many that m and every start take two bytes
    let most = if dice.once_in(20) { 999 } else { 12 };
    let messages = dice.within(1, most) as usize;
    let mut bytes = if dice.once_in(4) {
        wild::wild(dice)
    } else {
        ledgers::living(dice, messages)
    };
    damage(dice, &mut bytes);
    bytes
}

/// One to three changes, and what is off because of them perhaps put right again.
pub fn damage(dice: &mut Dice, bytes: &mut Vec<u8>) {
    for _ in 0..*dice.pick(&[1, 1, 2, 3]) {
        match dice.below(14) {
            0 => cut(dice, bytes),
            1 => add(dice, bytes),
            _ => dice.pick(&CHANGES)(dice, bytes),
        }
    }
    if dice.once_in(3) {
        put_starts_right(bytes);
    }
    if dice.once_in(3) {
        put_end_right(dice, bytes);
    }
    if dice.once_in(3) {
        put_sums_right(bytes);
    }
}

/// Changes that leave the length as it is.
const CHANGES: [fn(&mut Dice, &mut [u8]); 12] = [
    change_bit,
    change_byte,
    change_m,
    exchange_entries,
    change_start,
    change_start,
    change_kind,
    change_kind,
    change_sum,
    change_seat,
    change_body,
    repair_body,
];

// Where things stand. After a change the bytes may be any, so only what is really there is looked at.

/// How many whole entries there are, at most m.
fn entries(bytes: &[u8]) -> usize {
    if bytes.len() < 2 {
        return 0;
    }
    let m = usize::from(u16::from_le_bytes([bytes[0], bytes[1]]));
    m.min((bytes.len() - 2) / 8)
}

/// Where an entry begins: its kind, then its seat, start and sum.
fn entry_at(entry: usize) -> usize {
    2 + 8 * entry
}

/// Where some entry begins, if there is one.
fn some_entry(dice: &mut Dice, bytes: &[u8]) -> Option<usize> {
    match entries(bytes) {
        0 => None,
        count => Some(entry_at(dice.place(count))),
    }
}

/// The length of the body that the entry beginning here has by its kind.
fn length_at(bytes: &[u8], at: usize) -> usize {
    LENGTHS.get(usize::from(bytes[at])).copied().unwrap_or(0)
}

fn start_at(bytes: &[u8], at: usize) -> u16 {
    u16::from_le_bytes([bytes[at + 2], bytes[at + 3]])
}

fn set_start(bytes: &mut [u8], at: usize, start: u16) {
    bytes[at + 2..at + 4].copy_from_slice(&start.to_le_bytes());
}

/// Where the body of the entry beginning here stands, by its start, if all of it is there.
fn body_of(bytes: &[u8], at: usize) -> Option<std::ops::Range<usize>> {
    let start = usize::from(start_at(bytes, at));
    let end = start + length_at(bytes, at);
    if end <= bytes.len() {
        Some(start..end)
    } else {
        None
    }
}

// What puts right again what a change has put out of place.

/// Each start is where the body before it ends, by the kinds as they are now.
pub fn put_starts_right(bytes: &mut [u8]) {
    let count = entries(bytes);
    let mut start = entry_at(count);
    for entry in 0..count {
        set_start(bytes, entry_at(entry), start as u16);
        start += length_at(bytes, entry_at(entry));
    }
}

/// The bundle ends with its last body.
fn put_end_right(dice: &mut Dice, bytes: &mut Vec<u8>) {
    let count = entries(bytes);
    let bodies: usize = (0..count).map(|entry| length_at(bytes, entry_at(entry))).sum();
    let fill = dice.below(3) as u8;
    bytes.resize(entry_at(count) + bodies, fill);
}

fn put_sums_right(bytes: &mut [u8]) {
    for entry in 0..entries(bytes) {
        put_sum_right(bytes, entry_at(entry));
    }
}

fn put_sum_right(bytes: &mut [u8], at: usize) {
    if let Some(body) = body_of(bytes, at) {
        let sum = bundle::sum(&bytes[body]);
        bytes[at + 4..at + 8].copy_from_slice(&sum.to_le_bytes());
    }
}

// The changes. Each leaves bytes that are too few for it as they are.

/// A place of the contents more often than one of the bodies.
fn some_place(dice: &mut Dice, bytes: &[u8]) -> Option<usize> {
    if bytes.is_empty() {
        return None;
    }
    let contents = entry_at(entries(bytes)).min(bytes.len());
    Some(if dice.once_in(4) {
        dice.place(bytes.len())
    } else {
        dice.place(contents)
    })
}

fn change_bit(dice: &mut Dice, bytes: &mut [u8]) {
    if let Some(place) = some_place(dice, bytes) {
        bytes[place] ^= 1 << dice.below(8);
    }
}

fn change_byte(dice: &mut Dice, bytes: &mut [u8]) {
    if let Some(place) = some_place(dice, bytes) {
        bytes[place] = dice.byte();
    }
}

/// The last byte is missing, or one in between, or many, perhaps all behind the contents.
fn cut(dice: &mut Dice, bytes: &mut Vec<u8>) {
    if bytes.is_empty() {
        return;
    }
    let last = bytes.len() - 1;
    let place = dice.place(bytes.len());
    match dice.below(5) {
        0 => bytes.truncate(place),
        1 => bytes.truncate(entry_at(entries(bytes))),
        2 => drop(bytes.remove(place)),
        _ => bytes.truncate(last),
    }
}

/// A byte more at the end, or in between.
fn add(dice: &mut Dice, bytes: &mut Vec<u8>) {
    let place = if dice.once_in(3) {
        dice.place(bytes.len() + 1)
    } else {
        bytes.len()
    };
    let byte = *dice.pick(&[0, 1, 255]);
    bytes.insert(place, byte);
}

fn change_m(dice: &mut Dice, bytes: &mut [u8]) {
    if bytes.len() >= 2 {
        let m = u16::from_le_bytes([bytes[0], bytes[1]]);
        let any = dice.any() as u16;
        let m = *dice.pick(&[
            m.wrapping_sub(1),
            m.wrapping_sub(1),
            m.wrapping_add(1),
            0,
            1_000,
            1_001,
            m ^ 256,
            any,
        ]);
        bytes[..2].copy_from_slice(&m.to_le_bytes());
    }
}

fn exchange_entries(dice: &mut Dice, bytes: &mut [u8]) {
    if let (Some(one), Some(other)) = (some_entry(dice, bytes), some_entry(dice, bytes)) {
        for place in 0..8 {
            bytes.swap(one + place, other + place);
        }
    }
}

/// A start is off by a little or by much; perhaps the later ones are off by as much.
fn change_start(dice: &mut Dice, bytes: &mut [u8]) {
    if let Some(at) = some_entry(dice, bytes) {
        let off = *dice.pick(&[1, u16::MAX, 10, 256]);
        let last = if dice.once_in(2) {
            at
        } else {
            entry_at(entries(bytes) - 1)
        };
        for at in (at..=last).step_by(8) {
            let start = start_at(bytes, at).wrapping_add(off);
            set_start(bytes, at, start);
        }
    }
}

/// The sum is kept.
fn change_kind(dice: &mut Dice, bytes: &mut [u8]) {
    if let Some(at) = some_entry(dice, bytes) {
        bytes[at] = *dice.pick(&[0, 1, 2, 3, 4, 5, 6, 255]);
    }
}

fn change_sum(dice: &mut Dice, bytes: &mut [u8]) {
    if let Some(at) = some_entry(dice, bytes) {
        bytes[at + 4 + dice.place(4)] ^= 1 << dice.below(8);
    }
}

/// Most kinds have no seat.
fn change_seat(dice: &mut Dice, bytes: &mut [u8]) {
    if let Some(at) = some_entry(dice, bytes) {
        bytes[at + 1] = *dice.pick(&[0, 1, 2, 5, 16, 255]);
    }
}

fn change_body(dice: &mut Dice, bytes: &mut [u8]) {
    if let Some(at) = some_entry(dice, bytes) {
        change_body_at(dice, bytes, at);
    }
}

/// A byte of a body is another, and its sum is right.
fn repair_body(dice: &mut Dice, bytes: &mut [u8]) {
    if let Some(at) = some_entry(dice, bytes) {
        change_body_at(dice, bytes, at);
        put_sum_right(bytes, at);
    }
}

fn change_body_at(dice: &mut Dice, bytes: &mut [u8], at: usize) {
    let body = body_of(bytes, at).unwrap_or(0..0);
    if !body.is_empty() {
        let place = body.start + dice.place(body.len());
        bytes[place] = *dice.pick(&[0, 1, 2, 33, 255]);
    }
}
