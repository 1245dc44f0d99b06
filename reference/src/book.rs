//! One seat's book, changed in place by each message.

use crate::rules::Rules;
use std::fmt;

/// The most seats that a book can have.
const MOST_SEATS: usize = 16;
/// The most accounts that a book can have, and the least length of a waiting-list buffer.
const MOST_ACCOUNTS: usize = 32;

/// The account pays the value to the recipient; the number counts the account's slips from 1.
#[derive(Clone, Copy, PartialEq, Eq, Hash, Debug)]
pub struct Slip {
    pub account: u8,
    pub number: u32,
    pub value: u32,
    pub recipient: u8,
}

/// As document 01 writes a slip: `(0, 1, 4, 1)`.
impl fmt::Display for Slip {
    fn fmt(&self, out: &mut fmt::Formatter) -> fmt::Result {
        write!(
            out,
            "({}, {}, {}, {})",
            self.account, self.number, self.value, self.recipient
        )
    }
}

impl Slip {
    /// Whether the recipient is the payer.
    pub fn pays_itself(&self) -> bool {
        self.recipient == self.account
    }

    /// Whether account and number are equal and the slips are not.
    pub fn conflicts_with(&self, other: &Slip) -> bool {
        self.account == other.account && self.number == other.number && self != other
    }
}

/// n seats, of which f may misbehave, and k accounts with their opening balances.
#[derive(Clone, PartialEq, Eq, Debug)]
pub struct OpeningPage {
    pub n: u8,
    pub f: u8,
    pub k: u8,
    pub balances: [u32; 32],
}

impl OpeningPage {
    /// The page with these balances, at most 32, and as many accounts.
    pub fn of(n: u8, f: u8, given: &[u32]) -> OpeningPage {
        let mut balances = [0; 32];
        balances[..given.len()].copy_from_slice(given);
        OpeningPage {
            n,
            f,
            k: given.len() as u8,
            balances,
        }
    }

    /// The opening sum, which may be above the limit.
    pub fn sum(&self) -> u64 {
        self.balances.iter().map(|balance| u64::from(*balance)).sum()
    }
}

#[derive(Clone, Copy, PartialEq, Eq, Debug)]
pub enum Message {
    /// a home's new slip
    Request(Slip),
    /// a circulated slip
    Slip(Slip),
    Ack {
        seat: u8,
        slip: Slip,
    },
    Ruling(Slip),
    /// a balance question
    Question {
        account: u8,
    },
}

#[derive(Clone, PartialEq, Eq, Debug)]
pub enum Reply {
    /// C: circulate the slip
    Circulate,
    /// A: ack the slip
    Ack,
    /// K: the slip is accepted, and this call booked so many slips
    Accepted { booked: u32 },
    /// P: the slip with the most acks, or of several such the first by its lowest acknowledging seat; under the first
    /// rules any of them. A late P carries the retained slip, and its ack is not recorded
    PutForward { slip: Slip },
    /// N: the ack is recorded, and that is all
    Noted,
    /// B: the balance
    Balance(u32),
    /// R: the code of the refusal
    Refused(u8),
}

/// The latest accepted slip of an account, waiting or booked.
#[derive(Clone, Copy, PartialEq, Eq, Debug)]
pub struct Retained {
    pub slip: Slip,
    /// whether anything was put forward for its number, before it was accepted or late
    pub put_forward: bool,
}

/// What the book holds for one account.
#[derive(Clone, Default, PartialEq, Eq, Debug)]
pub struct Account {
    pub balance: u32,
    /// the number last booked, 0 at opening
    pub current: u32,
    /// whether this seat has acked the next number
    pub acked: bool,
    /// each seat's first ack for the next number
    pub acks: [Option<Slip>; MOST_SEATS],
    /// whether a slip was put forward for the next number, before one was accepted
    pub put_forward: bool,
    /// the accepted slip that waits to be booked
    pub waiting: Option<Slip>,
    /// none before the first acceptance, and under the rules before request 5
    pub retained: Option<Retained>,
}

impl Account {
    fn open(balance: u32) -> Account {
        Account {
            balance,
            current: 0,
            acked: false,
            acks: [None; MOST_SEATS],
            put_forward: false,
            waiting: None,
            retained: None,
        }
    }

    /// The waiting slip with its mark, which is what a book held from before request 5 retains.
    fn retained_from_before(&self) -> Option<Retained> {
        let put_forward = self.put_forward;
        self.waiting.map(|slip| Retained { slip, put_forward })
    }

    /// How many seats' acks are recorded for the next number.
    fn recorded(&self) -> usize {
        self.acks.iter().flatten().count()
    }

    /// How many of the recorded acks are equal to this slip.
    fn acks_for(&self, slip: &Slip) -> usize {
        self.acks.iter().flatten().filter(|acked| *acked == slip).count()
    }

    /// The slips with the most acks, once for each of their acks, from the lowest seat on. The list of acks begins with
    /// seat 0, in whatever order they came.
    fn most_acked(&self) -> impl Iterator<Item = Slip> + '_ {
        let acked = || self.acks.iter().flatten();
        let most = acked().map(|slip| self.acks_for(slip)).max();
        acked().filter(move |slip| Some(self.acks_for(slip)) == most).copied()
    }
}

/// One seat's record, and the rules that the seat answers by.
#[derive(Clone, PartialEq, Eq, Debug)]
pub struct Book {
    rules: Rules,
    n: usize,
    f: usize,
    opening_sum: u32,
    accounts: Vec<Account>,
}

impl Book {
    /// Opens a book under the newest rules, or refuses with 1, 2 or 3.
    pub fn open(page: &OpeningPage) -> Result<Book, u8> {
        let (n, f, k) = (usize::from(page.n), usize::from(page.f), usize::from(page.k));
        if !(1..=MOST_SEATS).contains(&n) || 5 * f >= n {
            return Err(1);
        }
        if !(1..=MOST_ACCOUNTS).contains(&k) || page.balances[k..].iter().any(|balance| *balance != 0) {
            return Err(2);
        }
        let opening_sum = u32::try_from(page.sum()).map_err(|_| 3)?;
        let accounts = page.balances[..k]
            .iter()
            .map(|balance| Account::open(*balance))
            .collect();
        Ok(Book {
            rules: Rules::NEWEST,
            n,
            f,
            opening_sum,
            accounts,
        })
    }

    /// All that it holds, at a seat that answers by these rules.
    pub fn under(self, rules: Rules) -> Book {
        Book { rules, ..self }
    }

    /// The seat switches to the next rules, and goes on with the book that it holds, marks included. With request 5 it
    /// retains its waiting slips, and no booked ones.
    pub fn switch(&mut self) {
        let next = self.rules.next();
        if next.put_forward_late() && !self.rules.put_forward_late() {
            for account in &mut self.accounts {
                account.retained = account.retained_from_before();
            }
        }
        self.rules = next;
    }

    pub fn rules(&self) -> Rules {
        self.rules
    }

    /// Does what the message says and replies; a refusal changes nothing.
    pub fn call(&mut self, message: &Message) -> Reply {
        self.call_choosing(message, |tied| tied[0])
    }

    /// The same, with the choice of the slip that P carries, where the rules leave it free: any of these.
    pub fn call_choosing(&mut self, message: &Message, choose: impl FnOnce(&[Slip]) -> Slip) -> Reply {
        let reply = match *message {
            Message::Request(slip) => self.request(slip),
            Message::Slip(slip) => self.slip(slip),
            Message::Ack { seat, slip } => self.ack(usize::from(seat), slip, choose),
            Message::Ruling(slip) => self.ruling(slip),
            Message::Question { account } => self.question(usize::from(account)),
        };
        reply.unwrap_or_else(Reply::Refused)
    }

    /// Writes the accounts with a waiting slip, lowest first, each once, into the front of the buffer and replies how
    /// many; 17 if the buffer is shorter than 32 bytes. The bytes behind them keep their content.
    pub fn waiting_list(&self, buffer: &mut [u8]) -> Result<usize, u8> {
        if buffer.len() < MOST_ACCOUNTS {
            return Err(17);
        }
        // the accounts stand by their numbers, and each has at most one slip that waits
        let waiting = self.accounts.iter().filter_map(|account| account.waiting);
        let payers: Vec<u8> = waiting.map(|slip| slip.account).collect();
        buffer[..payers.len()].copy_from_slice(&payers);
        Ok(payers.len())
    }

    /// n
    pub fn seats(&self) -> usize {
        self.n
    }

    /// k
    pub fn accounts(&self) -> usize {
        self.accounts.len()
    }

    /// All that is held for an account below k.
    pub fn account(&self, account: usize) -> &Account {
        &self.accounts[account]
    }

    /// The slip that a late P carries, if one answers this message: it is an ack that passes 4 and 5 and conflicts with
    /// the retained slip, and nothing was put forward for their number.
    pub fn late(&self, message: &Message) -> Option<Slip> {
        match *message {
            Message::Ack { seat, slip } if self.check_ack(usize::from(seat), &slip).is_ok() => self.conflicting(&slip),
            _ => None,
        }
    }

    /// The balance of an account below k.
    pub fn balance(&self, account: usize) -> u32 {
        self.accounts[account].balance
    }

    /// The current number of an account below k.
    pub fn current(&self, account: usize) -> u32 {
        self.accounts[account].current
    }

    fn request(&self, slip: Slip) -> Result<Reply, u8> {
        let account = self.check_new(&slip)?;
        self.check_funds(account, &slip)?;
        Ok(Reply::Circulate)
    }

    fn slip(&mut self, slip: Slip) -> Result<Reply, u8> {
        let account = self.check_new(&slip)?;
        // 12 comes before 11
        if self.accounts[account].acked {
            return Err(12);
        }
        self.check_funds(account, &slip)?;
        self.accounts[account].acked = true;
        Ok(Reply::Ack)
    }

    fn ack(&mut self, seat: usize, slip: Slip, choose: impl FnOnce(&[Slip]) -> Slip) -> Result<Reply, u8> {
        self.check_ack(seat, &slip)?;
        if let Some(retained) = self.conflicting(&slip) {
            return Ok(self.join_in(retained));
        }
        let payer = self.check_number(&slip)?;
        let account = &mut self.accounts[payer];
        if let Some(first) = account.acks[seat] {
            return Err(if first == slip { 9 } else { 10 });
        }
        account.acks[seat] = Some(slip);
        let equal = account.acks_for(&slip);
        if 2 * equal > self.n + 3 * self.f {
            return Ok(self.accept(payer, slip));
        }
        // this ack is recorded too, so two of them conflict just if not all are equal to it
        let recorded = account.recorded();
        let split = recorded >= self.n - self.f && recorded > equal;
        if !split || account.put_forward {
            return Ok(Reply::Noted);
        }
        account.put_forward = true;
        let mut most_acked = account.most_acked();
        let slip = if self.rules.leave_ties_free() {
            choose(&most_acked.collect::<Vec<Slip>>())
        } else {
            most_acked.next().expect("this ack is recorded")
        };
        Ok(Reply::PutForward { slip })
    }

    /// The retained slip that an ack of this one, which has passed 4 and 5, puts forward late.
    fn conflicting(&self, slip: &Slip) -> Option<Slip> {
        let retained = self.accounts[usize::from(slip.account)].retained?;
        let conflict = retained.slip.conflicts_with(slip);
        let late = self.rules.put_forward_late() && conflict && !retained.put_forward;
        late.then_some(retained.slip)
    }

    /// The retained slip is put forward late: its mark is set, and that is all.
    fn join_in(&mut self, slip: Slip) -> Reply {
        let put_forward = true;
        self.accounts[usize::from(slip.account)].retained = Some(Retained { slip, put_forward });
        Reply::PutForward { slip }
    }

    fn ruling(&mut self, slip: Slip) -> Result<Reply, u8> {
        self.check_fields(&slip)?;
        let account = self.check_number(&slip)?;
        Ok(self.accept(account, slip))
    }

    fn question(&self, account: usize) -> Result<Reply, u8> {
        let account = self.accounts.get(account).ok_or(5)?;
        Ok(Reply::Balance(account.balance))
    }

    /// Codes 5, 20 and 6 to 8, in this order, which requests and slips can meet. Returns the payer's place in
    /// `accounts`.
    fn check_new(&self, slip: &Slip) -> Result<usize, u8> {
        self.check_fields(slip)?;
        if slip.pays_itself() && self.rules.turn_down_self_payments() {
            return Err(20);
        }
        self.check_number(slip)
    }

    /// Codes 4 and 5.
    fn check_ack(&self, seat: usize, slip: &Slip) -> Result<(), u8> {
        if seat >= self.n {
            return Err(4);
        }
        self.check_fields(slip)
    }

    /// Code 5.
    fn check_fields(&self, slip: &Slip) -> Result<(), u8> {
        let (payer, recipient) = (usize::from(slip.account), usize::from(slip.recipient));
        let k = self.accounts.len();
        if payer >= k || recipient >= k || slip.number == 0 || slip.value == 0 || slip.value > self.opening_sum {
            return Err(5);
        }
        Ok(())
    }

    /// Codes 6 to 8, for a payer below k. Returns the payer's place in `accounts`.
    fn check_number(&self, slip: &Slip) -> Result<usize, u8> {
        let payer = usize::from(slip.account);
        let account = &self.accounts[payer];
        if slip.number <= account.current {
            return Err(6);
        }
        if slip.number - account.current > 1 {
            return Err(7);
        }
        if account.waiting.is_some() {
            return Err(8);
        }
        Ok(payer)
    }

    /// Code 11, which only requests and slips can meet: an accepted slip waits for its funds.
    fn check_funds(&self, account: usize, slip: &Slip) -> Result<(), u8> {
        if slip.value > self.accounts[account].balance {
            return Err(11);
        }
        Ok(())
    }

    /// The accepted slip is retained and waits, then settling begins.
    fn accept(&mut self, account: usize, slip: Slip) -> Reply {
        let account = &mut self.accounts[account];
        account.waiting = Some(slip);
        if self.rules.put_forward_late() {
            let put_forward = account.put_forward;
            account.retained = Some(Retained { slip, put_forward });
        }
        Reply::Accepted { booked: self.settle() }
    }

    /// Books while some waiting slip has its funds, and counts. Each booking can give another slip its funds, so the
    /// search starts again.
    fn settle(&mut self) -> u32 {
        let mut booked = 0;
        while let Some(slip) = self.next_to_book() {
            self.book(slip);
            booked += 1;
        }
        booked
    }

    /// The waiting slip with the lowest account among those whose value is at most the payer's balance.
    fn next_to_book(&self) -> Option<Slip> {
        self.accounts
            .iter()
            .find_map(|account| account.waiting.filter(|slip| slip.value <= account.balance))
    }

    /// Takes the value from the payer, who starts afresh at the next number but retains what was accepted, and gives it
    /// to the recipient, who may be the payer.
    fn book(&mut self, slip: Slip) {
        let payer = &mut self.accounts[usize::from(slip.account)];
        *payer = Account {
            current: slip.number,
            retained: payer.retained,
            ..Account::open(payer.balance - slip.value)
        };
        // never above the opening sum, as no portion is made or lost
        self.accounts[usize::from(slip.recipient)].balance += slip.value;
    }
}
