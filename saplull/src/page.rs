//! The opening page.

use crate::foreign::PAGE_SIZE;

/// The opening page, equal at all seats of a group.
#[derive(Clone, Copy, Debug, PartialEq, Eq)]
pub struct Page {
    /// n, 1 to 16
    pub seats: u8,
    /// f, how many seats may misbehave: five times f is below n
    pub faults: u8,
    /// k, 1 to 32
    pub accounts: u8,
    /// 0 behind the k-th; their sum is at most 4,294,967,295
    pub balances: [u32; 32],
}

impl Page {
    /// The page of a group whose accounts have these balances. Where they are more than 32 it opens no book: code 2.
    pub fn new(seats: u8, faults: u8, balances: &[u32]) -> Page {
        let mut all = [0; 32];
        for (place, balance) in all.iter_mut().zip(balances) {
            *place = *balance;
        }
        Page {
            seats,
            faults,
            accounts: u8::try_from(balances.len()).unwrap_or(u8::MAX),
            balances: all,
        }
    }

    /// The page's bytes, as a bundle's body of kind 0 has them.
    pub fn to_bytes(&self) -> [u8; PAGE_SIZE] {
        let mut bytes = [0; PAGE_SIZE];
        bytes[..3].copy_from_slice(&[self.seats, self.faults, self.accounts]);
        for (place, balance) in bytes[3..].chunks_exact_mut(4).zip(self.balances) {
            place.copy_from_slice(&balance.to_le_bytes());
        }
        bytes
    }
}
