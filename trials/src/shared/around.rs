//! A lent buffer with bytes on each side of it, which are looked at too.

use crate::shared::dice::Dice;
use std::ops::Range;

/// So many bytes are on each side.
const AROUND: usize = 16;

/// A buffer of this length and the bytes around it, each of which is any.
pub fn any(dice: &mut Dice, room: usize) -> Vec<u8> {
    dice.bytes(AROUND + room + AROUND)
}

/// A buffer that holds these bytes, and the bytes around it, each of which is any.
pub fn holding(dice: &mut Dice, bytes: &[u8]) -> Vec<u8> {
    let mut all = any(dice, bytes.len());
    all[lent(bytes.len())].copy_from_slice(bytes);
    all
}

/// Where the buffer itself is.
pub fn lent(room: usize) -> Range<usize> {
    AROUND..AROUND + room
}

/// Whether all bytes are as they have to be. The buffer's first is byte 0.
pub fn same(is: &[u8], due: &[u8]) -> Result<(), String> {
    match is.iter().zip(due).position(|(is, due)| is != due) {
        None => Ok(()),
        Some(place) => Err(format!(
            "byte {} is {} and not {}",
            place as i64 - AROUND as i64,
            is[place],
            due[place]
        )),
    }
}
