//! A seat's slate: what demand 3 compares the printed balances and current numbers with.

use super::printed::Reply;
use super::record::Call;
use reference::book::{Message, OpeningPage, Slip};

/// A place for every account that a slip can name, so that no slip that was wrongly accepted can stop the checks.
const PLACES: usize = 256;

pub struct Slate {
    accounts: usize,
    balances: Vec<u32>,
    counts: Vec<u32>,
    waiting: Vec<Slip>,
}

impl Slate {
    pub fn new(page: &OpeningPage) -> Slate {
        let mut balances = page.balances.to_vec();
        balances.resize(PLACES, 0);
        Slate {
            accounts: page.k.into(),
            balances,
            counts: vec![0; PLACES],
            waiting: Vec::new(),
        }
    }

    /// At a call answered K the call's slip joins the waiting ones; any other call leaves the slate as it is.
    pub fn feed(&mut self, call: &Call) {
        if !matches!(call.reply, Reply::Accepted { .. }) {
            return;
        }
        match call.message {
            Message::Request(slip) | Message::Slip(slip) | Message::Ack { slip, .. } | Message::Ruling(slip) => {
                self.waiting.push(slip)
            }
            Message::Question { .. } => {}
        }
        while let Some(slip) = self.leaves() {
            // The sum of all balances stays what it was at opening, so nothing overflows.
            self.balances[slip.account as usize] -= slip.value;
            self.balances[slip.recipient as usize] += slip.value;
            self.counts[slip.account as usize] += 1;
        }
    }

    /// Takes out the waiting slip with the lowest account among those whose value is at most the payer's balance.
    fn leaves(&mut self) -> Option<Slip> {
        let covered = |slip: &Slip| slip.value <= self.balances[slip.account as usize];
        let lowest = self
            .waiting
            .iter()
            .filter(|slip| covered(slip))
            .map(|slip| slip.account)
            .min()?;
        let place = self
            .waiting
            .iter()
            .position(|slip| slip.account == lowest && covered(slip))?;
        Some(self.waiting.remove(place))
    }

    pub fn balance(&self, account: u8) -> u32 {
        self.balances[account as usize]
    }

    /// The balances of the accounts that the page opened.
    pub fn balances(&self) -> &[u32] {
        &self.balances[..self.accounts]
    }

    pub fn counts(&self) -> &[u32] {
        &self.counts[..self.accounts]
    }

    /// Whether the slip's number is booked.
    pub fn has_booked(&self, slip: &Slip) -> bool {
        self.counts().get(usize::from(slip.account)) >= Some(&slip.number)
    }
}
