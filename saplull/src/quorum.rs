//! How many equal acks accept a slip.

use crate::foreign::{ledger_acks_needed, ledger_is_enough};

/// How many equal acks accept a slip in a group of so many seats, of which so many may misbehave.
pub fn acks_needed(seats: u8, faults: u8) -> u16 {
    // Safe: it is lent nothing.
    unsafe { ledger_acks_needed(seats, faults) }
}

/// Whether so many equal acks accept a slip.
pub fn is_enough(seats: u8, faults: u8, acks: u8) -> bool {
    // Safe: it is lent nothing.
    unsafe { ledger_is_enough(seats, faults, acks) }
}
