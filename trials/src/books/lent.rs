//! A book in words that a host lends, through the functions that the static library exports; and a reader of the words.

use reference::book::{Account, Book, Message, OpeningPage, Reply, Retained, Slip};
use reference::bundle::{ACK, QUESTION, REQUEST, RULING, SLIP};

extern "C" {
    // A slice is passed as its pointer, then its length; a reference to an array as its pointer alone.
    fn ledger_open(words: *mut [u32; WORDS], page: *const u8, length: usize) -> u8;
    fn ledger_call(
        words: *mut [u32; WORDS],
        kind: u8,
        seat: u8,
        body: *const u8,
        length: usize,
        reply: *mut [u32; REPLY],
    );
    fn ledger_waiting(words: *const [u32; WORDS], list: *mut u8, length: usize) -> u32;
    fn ledger_save(words: *const [u32; WORDS], saved: *mut [u8; SAVED]);
    fn ledger_load(words: *mut [u32; WORDS], saved: *const u8, length: usize) -> u8;
    fn ledger_words() -> u32;
    fn ledger_saved_size() -> u32;
    fn ledger_switch(held: *const HeldWords, words: *mut [u32; WORDS]);
}

/// How many words a book has, and how many a reply; and how many bytes a saved book.
pub const WORDS: usize = 1_380;
pub const REPLY: usize = 5;
pub const SAVED: usize = 5_532;
/// How many words an account has: balance, current number, two marks, value, number and recipient of the slip that
/// waits, for each seat the value and then for each seat the recipient of its ack; and value, number, recipient and
/// mark of the retained slip.
pub const BLOCK: usize = 43;
/// Behind the accounts stand n, f, k and the opening sum.
pub const GROUP: usize = 32 * BLOCK;

/// A book's words before request 5 of document 02, when nothing was retained: an account's block ended with the acks.
pub type HeldWords = [u32; HELD_WORDS];
pub const HELD_WORDS: usize = 1_252;
const HELD_BLOCK: usize = 39;

#[derive(Clone, PartialEq, Eq)]
pub struct Lent {
    pub words: Box<[u32; WORDS]>,
}

/// Words that are all 0, which is a book with no seats.
impl Default for Lent {
    fn default() -> Lent {
        Lent {
            words: Box::new([0; WORDS]),
        }
    }
}

// The exported functions ask nothing of what they are lent: each buffer is as long as is said, lent for the call alone,
// and no two overlap. So each wrapper is safe for every value.

impl Lent {
    /// Opens the book from a page's bytes: the code by which it is refused, or 0.
    pub fn open(&mut self, page: &[u8]) -> u8 {
        unsafe { ledger_open(&mut *self.words, page.as_ptr(), page.len()) }
    }

    /// One message as it is handed over, and its reply.
    pub fn call(&mut self, sent: &Sent) -> [u32; REPLY] {
        // what the buffer held is to be replaced
        let mut reply = [u32::MAX; REPLY];
        let body = &sent.body;
        unsafe {
            ledger_call(
                &mut *self.words,
                sent.kind,
                sent.seat,
                body.as_ptr(),
                body.len(),
                &mut reply,
            )
        };
        reply
    }

    /// The waiting list, into the front of `list`: how many accounts are written, or 256 times the code.
    pub fn waiting(&self, list: &mut [u8]) -> u32 {
        unsafe { ledger_waiting(&*self.words, list.as_mut_ptr(), list.len()) }
    }

    /// The book in its saved form, over whatever the buffer held.
    pub fn save(&self, saved: &mut [u8; SAVED]) {
        unsafe { ledger_save(&*self.words, saved) }
    }

    /// Goes on with a saved book: 0, or the code by which the bytes are refused.
    pub fn load(&mut self, saved: &[u8]) -> u8 {
        unsafe { ledger_load(&mut *self.words, saved.as_ptr(), saved.len()) }
    }

    /// The book that goes on with words of before request 5. What the new words held is to be replaced.
    pub fn taken_over(held: &HeldWords) -> Lent {
        let mut lent = Lent {
            words: Box::new([u32::MAX; WORDS]),
        };
        unsafe { ledger_switch(held, &mut *lent.words) };
        lent
    }

    /// The words as they were before request 5.
    pub fn as_before(&self) -> Box<HeldWords> {
        let mut held = Box::new([0; HELD_WORDS]);
        let (blocks, group) = held.split_at_mut(32 * HELD_BLOCK);
        for (before, block) in blocks.chunks_mut(HELD_BLOCK).zip(self.words.chunks(BLOCK)) {
            before.copy_from_slice(&block[..HELD_BLOCK]);
        }
        group.copy_from_slice(&self.words[GROUP..]);
        held
    }

    /// The words of before request 5 in their new places, with nothing retained.
    pub fn widened(held: &HeldWords) -> Lent {
        let mut lent = Lent::default();
        for (block, before) in lent.words.chunks_mut(BLOCK).zip(held.chunks(HELD_BLOCK)).take(32) {
            block[..HELD_BLOCK].copy_from_slice(before);
        }
        lent.words[GROUP..].copy_from_slice(&held[32 * HELD_BLOCK..]);
        lent
    }

    /// What the words hold for an account below 32.
    pub fn account(&self, account: usize) -> Account {
        let block = &self.words[account * BLOCK..(account + 1) * BLOCK];
        let slip = |value, number, recipient: u32| {
            let (account, recipient) = (account as u8, recipient as u8);
            (value > 0).then_some(Slip {
                account,
                number,
                value,
                recipient,
            })
        };
        let next = block[1].wrapping_add(1);
        let (values, recipients) = (&block[7..23], &block[23..39]);
        let put_forward = block[42] > 0;
        Account {
            balance: block[0],
            current: block[1],
            acked: block[2] > 0,
            put_forward: block[3] > 0,
            waiting: slip(block[4], block[5], block[6]),
            acks: std::array::from_fn(|seat| slip(values[seat], next, recipients[seat])),
            retained: slip(block[39], block[40], block[41]).map(|slip| Retained { slip, put_forward }),
        }
    }

    /// The words of a book that this page opened, as a host has them that goes on with it.
    pub fn of(page: &OpeningPage, book: &Book) -> Lent {
        let mut lent = Lent::default();
        for (place, block) in (0..book.accounts()).zip(lent.words.chunks_mut(BLOCK)) {
            let account = book.account(place);
            let marks = [account.acked, account.put_forward].map(u32::from);
            block[..4].copy_from_slice(&[account.balance, account.current, marks[0], marks[1]]);
            if let Some(slip) = account.waiting {
                block[4..7].copy_from_slice(&of_slip(&slip));
            }
            if let Some(Retained { slip, put_forward }) = account.retained {
                block[39..42].copy_from_slice(&of_slip(&slip));
                block[42] = put_forward.into();
            }
            for (seat, ack) in account.acks.iter().enumerate() {
                let slip = ack.map_or([0; 2], |slip| [slip.value, slip.recipient.into()]);
                [block[7 + seat], block[23 + seat]] = slip;
            }
        }
        lent.words[GROUP..].copy_from_slice(&group(page));
        lent
    }

    /// The accounts that wait, lowest first: each account is looked at once, from 0 on.
    pub fn that_wait(&self) -> Vec<u8> {
        (0..32)
            .filter(|account| self.account(usize::from(*account)).waiting.is_some())
            .collect()
    }

    /// Whether the words hold this book, which this page opened: the group, every account, and nothing behind the k-th.
    pub fn holds(&self, page: &OpeningPage, book: &Book) -> Result<(), String> {
        let group = group(page);
        if self.words[GROUP..] != group {
            return Err(format!("the group is {:?} and not {group:?}", &self.words[GROUP..]));
        }
        let none = Account::default();
        for account in 0..32 {
            let due = if account < book.accounts() {
                book.account(account)
            } else {
                &none
            };
            let held = self.account(account);
            if held != *due {
                return Err(format!("account {account} is {held:?} and not {due:?}"));
            }
        }
        Ok(())
    }
}

/// How many words a book has and how many bytes a saved one, as the library says it.
pub fn sizes() -> (u32, u32) {
    unsafe { (ledger_words(), ledger_saved_size()) }
}

/// Value, number and recipient.
fn of_slip(slip: &Slip) -> [u32; 3] {
    [slip.value, slip.number, slip.recipient.into()]
}

/// n, f, k and the opening sum.
fn group(page: &OpeningPage) -> [u32; 4] {
    [page.n.into(), page.f.into(), page.k.into(), page.sum() as u32]
}

/// A message as it is handed over.
#[derive(Clone, PartialEq, Eq, Debug)]
pub struct Sent {
    pub kind: u8,
    pub seat: u8,
    pub body: Vec<u8>,
}

impl Sent {
    /// The message as a bundle has it.
    pub fn of(message: &Message) -> Sent {
        let (kind, seat, slip) = match *message {
            Message::Request(slip) => (REQUEST, 0, slip),
            Message::Slip(slip) => (SLIP, 0, slip),
            Message::Ack { seat, slip } => (ACK, seat, slip),
            Message::Ruling(slip) => (RULING, 0, slip),
            Message::Question { account } => {
                return Sent {
                    kind: QUESTION,
                    seat: 0,
                    body: vec![account],
                }
            }
        };
        let mut body = vec![slip.account];
        body.extend(slip.number.to_le_bytes());
        body.extend(slip.value.to_le_bytes());
        body.push(slip.recipient);
        Sent { kind, seat, body }
    }
}

/// A reply as the lent buffer has it: the letter, its values, and zeros.
pub fn told(reply: &Reply) -> [u32; REPLY] {
    let (letter, values) = match *reply {
        Reply::Circulate => (b'C', [0; 4]),
        Reply::Ack => (b'A', [0; 4]),
        Reply::Accepted { booked } => (b'K', [booked, 0, 0, 0]),
        Reply::PutForward { slip } => (
            b'P',
            [slip.account.into(), slip.number, slip.value, slip.recipient.into()],
        ),
        Reply::Noted => (b'N', [0; 4]),
        Reply::Balance(balance) => (b'B', [balance, 0, 0, 0]),
        Reply::Refused(code) => (b'R', [code.into(), 0, 0, 0]),
    };
    let [first, second, third, fourth] = values;
    [letter.into(), first, second, third, fourth]
}
