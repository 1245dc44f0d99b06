//! What the tests share: books and messages in few words, and pseudo-random bundles from a fixed seed.

// each test file takes what it needs
#![allow(dead_code)]

use reference::book::{Book, Message, OpeningPage, Slip};

pub const T: Slip = Slip {
    account: 0,
    number: 1,
    value: 4,
    recipient: 1,
};

pub fn open(n: u8, f: u8, given: &[u32]) -> Book {
    Book::open(&OpeningPage::of(n, f, given)).expect("the page is not refused")
}

pub fn slip(account: u8, number: u32, value: u32, recipient: u8) -> Slip {
    Slip {
        account,
        number,
        value,
        recipient,
    }
}

pub fn ack(seat: u8, slip: Slip) -> Message {
    Message::Ack { seat, slip }
}

/// A small generator: the same numbers for the same seed.
pub struct Chance(pub u64);

impl Chance {
    /// Any number.
    pub fn any(&mut self) -> u64 {
        self.0 = self
            .0
            .wrapping_mul(6364136223846793005)
            .wrapping_add(1442695040888963407);
        (self.0 ^ (self.0 >> 29)).wrapping_mul(0x9E37_79B9_7F4A_7C15) >> 16
    }

    /// A number below this one.
    pub fn below(&mut self, end: u64) -> u64 {
        self.any() % end
    }

    /// Whether one of so many cases is hit.
    pub fn one_in(&mut self, cases: u64) -> bool {
        self.below(cases) == 0
    }

    /// An opening page with any bytes and balances, refused more often than not.
    pub fn any_page(&mut self) -> OpeningPage {
        let mut balances = [0; 32];
        let count = self.below(33) as usize;
        for balance in &mut balances[..count] {
            *balance = if self.one_in(3) { 0 } else { self.any() as u32 };
        }
        OpeningPage {
            n: self.any() as u8,
            f: self.any() as u8,
            k: self.any() as u8,
            balances,
        }
    }

    /// An opening page that is not refused: few accounts with low balances, so that much happens.
    pub fn good_page(&mut self) -> OpeningPage {
        let n = 1 + self.below(16);
        let f = self.below((n + 4) / 5);
        let k = 1 + self.below(4);
        let mut balances = [0; 32];
        for balance in &mut balances[..k as usize] {
            *balance = self.below(8) as u32;
        }
        OpeningPage {
            n: n as u8,
            f: f as u8,
            k: k as u8,
            balances,
        }
    }

    /// A slip that mostly fits a good page: few different ones, so that acks agree and conflict.
    pub fn slip(&mut self) -> Slip {
        let number = if self.one_in(30) { self.any() } else { 1 + self.below(2) } as u32;
        let value = if self.one_in(30) { self.any() } else { 1 + self.below(2) } as u32;
        Slip {
            account: self.below(3) as u8,
            number,
            value,
            recipient: self.below(2) as u8,
        }
    }

    /// A message; acks are the most frequent, rulings the rarest.
    pub fn message(&mut self) -> Message {
        let slip = self.slip();
        match self.below(50) {
            0..=2 => Message::Request(slip),
            3..=5 => Message::Slip(slip),
            6 => Message::Ruling(slip),
            7..=9 => Message::Question { account: slip.account },
            _ => Message::Ack {
                seat: self.below(17) as u8,
                slip,
            },
        }
    }

    pub fn messages(&mut self, most: u64) -> Vec<Message> {
        let count = self.below(most + 1);
        (0..count).map(|_| self.message()).collect()
    }
}
