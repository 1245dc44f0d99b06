//! What the programs are measured on: loads of messages.

use reference::book::{Message, OpeningPage, Slip};
use reference::bundle::write;

/// Messages to a book that a page opens, made up to a number of them.
pub struct Load {
    pub name: &'static str,
    pub page: OpeningPage,
    message: fn(usize) -> Message,
}

pub fn page(balances: [u32; 32]) -> OpeningPage {
    OpeningPage {
        n: 16,
        f: 3,
        k: 32,
        balances,
    }
}

/// Thirteen acks accept each slip: twelve N, then K 1. The accounts take turns.
fn ack(index: usize) -> Message {
    let (round, seat) = (index / 13, index % 13);
    let slip = Slip {
        account: (round % 32) as u8,
        number: (round / 32) as u32 + 1,
        value: 1,
        recipient: ((round + 1) % 32) as u8,
    };
    Message::Ack { seat: seat as u8, slip }
}

/// Thirty-one rulings that wait for their funds, K 0, and one that lets all thirty-two be booked, K 32.
fn chain(index: usize) -> Message {
    let account = ((index + 1) % 32) as u8;
    Message::Ruling(Slip {
        account,
        number: (index / 32) as u32 + 1,
        value: 5,
        recipient: (account + 1) % 32,
    })
}

/// As often as sixteen seats can come to P: thirteen acks for two slips, seven and six, which are twelve N and P; then
/// a ruling for the one with the most acks, K 1, so that the next number may begin. The accounts take turns.
fn conflict(index: usize) -> Message {
    let (round, step) = (index / 14, index % 14);
    let slip = Slip {
        account: (round % 32) as u8,
        number: (round / 32) as u32 + 1,
        value: 1 + (step % 2) as u32,
        recipient: ((round + 1) % 32) as u8,
    };
    match step {
        13 => Message::Ruling(Slip { value: 1, ..slip }),
        seat => Message::Ack { seat: seat as u8, slip },
    }
}

/// Slips, acks and rulings whose number is ahead: R 7.
fn refused(index: usize) -> Message {
    let slip = Slip {
        account: (index % 32) as u8,
        number: 7,
        value: 1,
        recipient: ((index + 1) % 32) as u8,
    };
    match index % 3 {
        0 => Message::Slip(slip),
        1 => Message::Ack {
            seat: (index % 16) as u8,
            slip,
        },
        _ => Message::Ruling(slip),
    }
}

/// A message of each kind in turn.
pub fn each_kind(index: usize) -> Message {
    let slip = Slip {
        account: (index % 32) as u8,
        number: index as u32,
        value: 1_000 + index as u32,
        recipient: 3,
    };
    let seat = (index % 16) as u8;
    match index % 5 {
        0 => Message::Request(slip),
        1 => Message::Slip(slip),
        2 => Message::Ack { seat, slip },
        3 => Message::Ruling(slip),
        _ => Message::Question { account: slip.account },
    }
}

pub fn loads() -> [Load; 4] {
    let mut first = [0; 32];
    first[0] = 5;
    [
        Load {
            name: "acks",
            page: page([100; 32]),
            message: ack,
        },
        Load {
            name: "settling chains",
            page: page(first),
            message: chain,
        },
        Load {
            name: "refusals",
            page: page([100; 32]),
            message: refused,
        },
        Load {
            name: "conflicts",
            page: page([100; 32]),
            message: conflict,
        },
    ]
}

impl Load {
    pub fn messages(&self, count: usize) -> Vec<Message> {
        (0..count).map(self.message).collect()
    }

    pub fn bundle(&self, messages: usize) -> Vec<u8> {
        write(&self.page, &self.messages(messages))
    }
}
