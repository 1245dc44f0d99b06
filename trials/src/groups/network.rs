//! Messages on their way: per seat a pool from which they are drawn early, late, out of order, twice or never.

use crate::shared::dice::Dice;
use reference::book::Message;

pub struct Network {
    pools: Vec<Vec<Message>>,
    /// The accounts that a seat hears nothing of for a while, a bit for each.
    late: Vec<u32>,
    pub lost: u64,
    pub repeated: u64,
    pub reordered: u64,
}

impl Network {
    pub fn new(n: usize) -> Network {
        Network {
            pools: vec![Vec::new(); n],
            late: vec![0; n],
            lost: 0,
            repeated: 0,
            reordered: 0,
        }
    }

    pub fn send(&mut self, seat: usize, message: Message) {
        self.pools[seat].push(message);
    }

    pub fn send_to_all(&mut self, message: Message) {
        self.pools.iter_mut().for_each(|pool| pool.push(message));
    }

    pub fn is_on_its_way(&self, seat: usize, message: &Message) -> bool {
        self.pools[seat].contains(message)
    }

    /// Now and then a seat hears nothing more of some accounts, or of none at all; after a while it hears again. Few
    /// seats do so at a time, so that the others go on without them.
    pub fn change_delays(&mut self, dice: &mut Dice) {
        let n = self.late.len() as u64;
        for late in &mut self.late {
            let rounds = if *late == u32::MAX { 3 } else { 10 };
            if dice.once_in(rounds) {
                *late = 0;
            }
        }
        if dice.once_in(2 + 20 / n) {
            let seat = dice.below(n) as usize;
            self.late[seat] = if dice.once_in(4) { u32::MAX } else { dice.any() as u32 };
        }
    }

    pub fn end_delays(&mut self) {
        self.late.iter_mut().for_each(|late| *late = 0);
    }

    /// Up to so many messages for a seat. If all is calm, none is lost and none repeated.
    pub fn draw(&mut self, seat: usize, most: usize, calm: bool, dice: &mut Dice) -> Vec<Message> {
        let mut batch = Vec::new();
        while batch.len() < most && !self.pools[seat].is_empty() {
            let oldest = calm || dice.once_in(2);
            let place = if oldest {
                0
            } else {
                dice.below(self.pools[seat].len() as u64) as usize
            };
            // What is late stays behind; a search from that place on finds the next that is not.
            let place = match (place..self.pools[seat].len()).find(|place| !self.is_late(seat, *place)) {
                Some(place) => place,
                None => break,
            };
            batch.extend(self.take(seat, place, calm, dice));
        }
        batch
    }

    fn is_late(&self, seat: usize, place: usize) -> bool {
        let account = match self.pools[seat][place] {
            Message::Request(slip) | Message::Slip(slip) | Message::Ruling(slip) => slip.account,
            Message::Ack { slip, .. } => slip.account,
            Message::Question { .. } => return false,
        };
        self.late[seat] >> (account % 32) & 1 == 1
    }

    /// Takes a message out of the pool, or loses it, or leaves it there to come again.
    fn take(&mut self, seat: usize, place: usize, calm: bool, dice: &mut Dice) -> Option<Message> {
        let message = self.pools[seat][place];
        if !calm && dice.once_in(16) {
            self.repeated += 1;
            return Some(message);
        }
        self.pools[seat].remove(place);
        if !calm && dice.once_in(16) {
            self.lost += 1;
            return None;
        }
        self.reordered += (place > 0) as u64;
        Some(message)
    }

    /// Loses random messages until at most so many are on their way to the seat.
    pub fn thin_out(&mut self, seat: usize, most: usize, dice: &mut Dice) {
        while self.pools[seat].len() > most {
            let place = dice.below(self.pools[seat].len() as u64) as usize;
            self.pools[seat].swap_remove(place);
            self.lost += 1;
        }
    }
}
