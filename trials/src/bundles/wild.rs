//! Bundles that no ledger stands behind: arbitrary fields, and arbitrary bytes.

use crate::bundles::openings;
use crate::messages::ledgers::with_slip;
use crate::shared::dice::Dice;
use reference::book::{Message, Slip};
use reference::bundle;

/// A sound bundle whose opening is often refused, and whose messages have arbitrary fields.
pub fn wild(dice: &mut Dice) -> Vec<u8> {
    let page = openings::wild(dice);
    let messages: Vec<Message> = (0..dice.below(41)).map(|_| message(dice)).collect();
    bundle::write(&page, &messages)
}

/// A message of any kind with arbitrary fields.
pub fn message(dice: &mut Dice) -> Message {
    if dice.once_in(6) {
        return Message::Question { account: account(dice) };
    }
    let slip = Slip {
        account: account(dice),
        number: number(dice),
        value: number(dice),
        recipient: account(dice),
    };
    let seat = *dice.pick(&[0, 1, 2, 3, 15, 16, 255]);
    with_slip(dice, seat, slip)
}

fn account(dice: &mut Dice) -> u8 {
    match dice.below(8) {
        0 => dice.byte(),
        1 | 2 => dice.below(34) as u8,
        _ => dice.below(3) as u8,
    }
}

fn number(dice: &mut Dice) -> u32 {
    match dice.below(8) {
        0 => dice.any() as u32,
        1 => *dice.pick(&[0, 1 << 8, 1 << 16, 1 << 24, u32::MAX]),
        _ => dice.within(1, 3) as u32,
    }
}

/// Arbitrary bytes, 0 to 300 of them, mostly with a small m and with small numbers; sometimes the first entry is right,
/// so that a later one or the end decides.
pub fn bytes(dice: &mut Dice) -> Vec<u8> {
    let length = dice.below(301) as usize;
    let bound = *dice.pick(&[2, 7, 256]);
    let mut bytes: Vec<u8> = (0..length).map(|_| dice.below(bound) as u8).collect();
    if length >= 2 && !dice.once_in(4) {
        let m = dice.below(length as u64 / 8 + 2) as u16;
        bytes[..2].copy_from_slice(&m.to_le_bytes());
        if m > 0 && length >= 6 && dice.once_in(2) {
            bytes[2..4].fill(0);
            bytes[4..6].copy_from_slice(&(2 + 8 * m).to_le_bytes());
        }
    }
    bytes
}
