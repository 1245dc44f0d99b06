//! The world between the seats: homes, bad seats, the network and the council, driving the honest seats in rounds.

use super::breach::Breach;
use super::council::{Council, Wait};
use super::keeper::Keeper;
use super::network::Network;
use super::plan::{chosen, Plan};
use super::printed::{Closing, Reply};
use super::record::{key_of, Call, Key, Record};
use super::seat::{Clerk, Seat};
use super::slips::{self, Made};
use crate::shared::dice::Dice;
use reference::book::{Message, OpeningPage, Slip};
use reference::rules::Rules;
use std::collections::BTreeMap;

pub struct World {
    pub plan: Plan,
    dice: Dice,
    /// The honest seats.
    pub seats: BTreeMap<usize, Seat>,
    pub network: Network,
    pub council: Council,
    made: BTreeMap<Key, Made>,
    /// The acks that honest seats sent.
    acks: BTreeMap<Key, Vec<Message>>,
    /// The slip that an honest seat accepted last for an account.
    accepted: BTreeMap<(usize, u8), Slip>,
    /// What waited at a switch and is to be provoked about once it is booked.
    spared: Vec<(usize, Slip)>,
    pub conflicts: u64,
    /// Switches of seats that answer by the newest rules.
    pub idle_switches: u64,
    pub record: Record,
}

/// Makes a run. The order of its calls is that of the record: round by round, in a round seat by seat.
pub fn run(plan: Plan, dice: &mut Dice) -> World {
    let mut world = World::open(plan, Dice::new(dice.any()));
    for round in 0..world.plan.rounds {
        world.round(round);
    }
    world
}

impl World {
    fn open(plan: Plan, mut dice: Dice) -> World {
        let n = plan.bad.len();
        let mut record = Record {
            pages: plan.pages.clone(),
            bad: plan.bad.clone(),
            wait: plan.wait,
            events: Vec::new(),
            faults: Vec::new(),
        };
        let mut seats = BTreeMap::new();
        for number in (0..n).filter(|number| !plan.bad[*number]) {
            let page = plan.pages[number].clone();
            let clerk = match (plan.courses[number].start, plan.breach) {
                // If a text is changed, then that of one seat, the first.
                (Rules::NEWEST, Some(Breach::Told(lie))) if seats.is_empty() => Clerk::Daybook(Some(lie)),
                (Rules::NEWEST, _) => Clerk::Daybook(None),
                (rules, _) => Clerk::Keeper(Keeper::open(&page, rules, Dice::new(dice.any()))),
            };
            seats.insert(number, Seat::open(number, page, clerk, &mut record));
        }
        let council = Council::new(match plan.breach {
            Some(Breach::NoWait) => Wait::ForOne,
            _ => plan.wait,
        });
        World {
            plan,
            dice,
            seats,
            network: Network::new(n),
            council,
            made: BTreeMap::new(),
            acks: BTreeMap::new(),
            accepted: BTreeMap::new(),
            spared: Vec::new(),
            conflicts: 0,
            idle_switches: 0,
            record,
        }
    }

    fn round(&mut self, round: u64) {
        self.switch(round);
        let calm = round + self.plan.calm >= self.plan.rounds;
        if calm {
            self.network.end_delays();
        } else {
            self.network.change_delays(&mut self.dice);
            self.make_slips();
            self.send_odd_messages();
            self.provoke();
            self.ask();
        }
        self.provoke_spared();
        self.rule();
        self.send_again(calm);
        self.send_disputed();
        self.deliver(calm);
    }

    /// Seats switch whose time it is; homes and bad seats answer that.
    fn switch(&mut self, round: u64) {
        for seat in self.honest() {
            if self.is_to_switch(seat, round) {
                self.switch_seat(seat);
                self.try_all_again(seat);
                self.provoke_waiting(seat);
            }
        }
    }

    fn switch_seat(&mut self, seat: usize) {
        let switching = self.seats.get_mut(&seat).expect("an honest seat");
        self.idle_switches += u64::from(switching.rules() == Rules::NEWEST);
        match self.plan.breach {
            Some(Breach::RunAgain) => switching.run_again(),
            Some(Breach::NothingRetained) => switching.switch_bare(),
            _ => switching.switch(),
        }
    }

    /// Homes that had a self-payment acked there try again.
    fn try_all_again(&mut self, seat: usize) {
        for slip in self.marks_of_self_payments(seat) {
            self.try_again(seat, slip);
        }
    }

    /// Bad seats provoke a late P of what waits there, at once or when it is booked.
    fn provoke_waiting(&mut self, seat: usize) {
        for slip in self.waiting(seat) {
            if self.dice.once_in(3) {
                self.provoke_thrice(seat, slip);
            } else {
                self.spared.push((seat, slip));
            }
        }
    }

    /// What waited at a switch and is booked by now is provoked about.
    fn provoke_spared(&mut self) {
        let spared = std::mem::take(&mut self.spared);
        for (seat, slip) in spared {
            if self.is_open(seat, &slip) {
                self.spared.push((seat, slip));
            } else {
                self.provoke_thrice(seat, slip);
            }
        }
    }

    /// One of three acks most often brings a late P that can come.
    fn provoke_thrice(&mut self, seat: usize, accepted: Slip) {
        for _ in 0..3 {
            self.provoke_about(seat, accepted);
        }
    }

    /// Whether the seat has not booked the slip's number.
    fn is_open(&self, seat: usize, slip: &Slip) -> bool {
        slip.number > self.seats[&seat].closings()[usize::from(slip.account)].current
    }

    /// The slips that the seat has accepted and not booked.
    fn waiting(&self, seat: usize) -> Vec<Slip> {
        let accepted = self.accepted.range((seat, 0)..=(seat, u8::MAX)).map(|(_, slip)| *slip);
        accepted.filter(|slip| self.is_open(seat, slip)).collect()
    }

    /// Its round has come; or a slip waits there, which the newest rules retain.
    fn is_to_switch(&mut self, seat: usize, round: u64) -> bool {
        let course = self.plan.courses[seat];
        let rules = self.seats[&seat].rules();
        match (course.switch, self.plan.breach) {
            // From then on it waits for a mark that it can lose.
            (Some(at), Some(Breach::RunAgain)) => {
                round >= at && rules < Rules::NEWEST && !self.marks_of_self_payments(seat).is_empty()
            }
            (Some(_), _) if rules < Rules::NEWEST => course.switches_at(round) || self.is_to_retain(seat),
            _ => course.switches_at(round),
        }
    }

    /// Whether a slip waits there for whose number nothing was put forward, or now and then any slip.
    fn is_to_retain(&mut self, seat: usize) -> bool {
        let waiting = self.waiting(seat);
        let mut keys = waiting.iter().map(key_of);
        keys.any(|key| !self.council.has_heard(seat, key)) || !waiting.is_empty() && self.dice.once_in(3)
    }

    /// The self-payments that the seat has acked and not booked.
    fn marks_of_self_payments(&self, seat: usize) -> Vec<Slip> {
        let acks = self.acks.values().flatten();
        let slips = acks.filter_map(|ack| match ack {
            Message::Ack { seat: sender, slip } if usize::from(*sender) == seat => Some(*slip),
            _ => None,
        });
        slips
            .filter(|slip| slip.pays_itself() && self.is_open(seat, slip))
            .collect()
    }

    /// A home sends its self-payment to the seat again, and a slip to another recipient to that seat or to all.
    fn try_again(&mut self, seat: usize, slip: Slip) {
        self.network.send(seat, Message::Slip(slip));
        let k = self.page().k;
        let another = Slip {
            recipient: (slip.account + 1) % k,
            ..slip
        };
        if self.dice.once_in(2) {
            self.network.send(seat, Message::Slip(another));
        } else {
            self.network.send_to_all(Message::Slip(another));
        }
    }

    fn page(&self) -> OpeningPage {
        self.plan.pages[0].clone()
    }

    fn honest(&self) -> Vec<usize> {
        self.seats.keys().copied().collect()
    }

    /// The seat that the home of a slip's payer belongs to.
    fn own_seat(&self, slip: &Slip) -> usize {
        slip.account as usize % self.plan.bad.len()
    }

    /// The account at the seat that has booked most of its numbers, and then has the most for it.
    fn furthest(&self, account: u8) -> Closing {
        let closings = self.seats.values().map(|seat| seat.closings()[account as usize]);
        closings
            .max_by_key(|closing| (closing.current, closing.balance))
            .expect("an honest seat")
    }

    /// Homes make slips for their next number, some of them conflicting ones.
    fn make_slips(&mut self) {
        let page = self.page();
        for account in 0..page.k {
            let closing = self.furthest(account);
            let key = (account, closing.current + 1);
            let due = !self.made.contains_key(&key) || self.makes_again(key);
            // A home without funds mostly waits for some.
            let chance = if closing.balance == 0 {
                40
            } else {
                1 + page.k as u64 / 8
            };
            if !due || !self.dice.once_in(chance) {
                continue;
            }
            let slip = slips::new_slip(&page, key, closing, self.plan.to_itself, &mut self.dice);
            if self.plan.contest > 0 && self.dice.once_in(self.plan.contest) {
                self.circulate_conflict(slip);
            } else {
                self.request(slip);
            }
        }
    }

    /// If no seat acked what was made for this number, or if it was a self-payment, which seats that have switched turn
    /// down, the home may make another in its place.
    fn makes_again(&mut self, key: Key) -> bool {
        let of_itself = self.made[&key].slips.iter().any(Slip::pays_itself);
        (of_itself || !self.acks.contains_key(&key)) && self.dice.once_in(6)
    }

    /// A home's new slip goes to its own seat as a request. If that seat is bad it circulates the slip all the same,
    /// and now and then the home does.
    fn request(&mut self, slip: Slip) {
        let page = self.page();
        let mut told = vec![slip; page.n.into()];
        for told in &mut told {
            if self.dice.once_in(4) {
                *told = slips::other(&page, &slip, &mut self.dice);
            }
        }
        let own = self.own_seat(&slip);
        if self.plan.bad[own] || self.dice.once_in(3) {
            self.network.send_to_all(Message::Slip(slip));
        } else {
            self.network.send(own, Message::Request(slip));
        }
        self.note(&[slip], told);
    }

    /// Two or three conflicting slips with one number, circulated to different seats.
    fn circulate_conflict(&mut self, slip: Slip) {
        let page = self.page();
        let count = self.dice.within(1, 2);
        let mut conflicting = vec![slip];
        conflicting.extend((0..count).map(|_| slips::other(&page, &slip, &mut self.dice)));
        let own = self.own_seat(&slip);
        self.network.send(own, Message::Request(*self.dice.pick(&conflicting)));
        let sides = self.split(&conflicting);
        for (seat, slip) in sides.into_iter().enumerate() {
            self.network.send(seat, Message::Slip(slip));
        }
        let told = self.split(&conflicting);
        self.note(&conflicting, told);
        self.conflicts += 1;
    }

    /// A slip for each seat: the first one for most seats, or for about half, or for any number of them.
    fn split(&mut self, conflicting: &[Slip]) -> Vec<Slip> {
        let page = self.page();
        let n = page.n as u64;
        let others = match self.dice.below(4) {
            0 | 1 => self.dice.within(1, page.f as u64 + 1),
            2 => n / 2,
            _ => self.dice.below(n + 1),
        };
        let others = chosen(n as usize, others.min(n) as usize, &mut self.dice);
        let slip = |other: &bool| {
            if *other {
                *self.dice.pick(&conflicting[1..])
            } else {
                conflicting[0]
            }
        };
        others.iter().map(slip).collect()
    }

    fn note(&mut self, slips: &[Slip], told: Vec<Slip>) {
        let slips = slips.to_vec();
        self.made.insert(key_of(&slips[0]), Made { slips, told });
    }

    /// Bad members and bad seats send what they like; so that all premises are kept, no ack names an honest seat.
    fn send_odd_messages(&mut self) {
        let page = self.page();
        let mut models = vec![Slip {
            account: 0,
            number: 1,
            value: 1,
            recipient: 0,
        }];
        models.extend(self.made.values().flat_map(|made| &made.slips));
        for seat in self.honest() {
            if self.dice.once_in(2) {
                continue;
            }
            let slip = slips::odd(&page, *self.dice.pick(&models), &mut self.dice);
            let message = match self.dice.below(4) {
                0 => Message::Request(slip),
                1 => Message::Slip(slip),
                _ => Message::Ack {
                    seat: self.odd_sender(),
                    slip,
                },
            };
            self.network.send(seat, message);
        }
    }

    /// Bad seats send honest ones acks for what these have accepted: mostly another slip, which brings a late P once,
    /// now and then the same, or one of the number before.
    fn provoke(&mut self) {
        let targets: Vec<(usize, Slip)> = self.accepted.iter().map(|((seat, _), slip)| (*seat, *slip)).collect();
        for (seat, accepted) in targets {
            if self.dice.once_in(12) {
                self.provoke_about(seat, accepted);
            }
        }
    }

    fn provoke_about(&mut self, seat: usize, accepted: Slip) {
        let page = self.page();
        let other = slips::other(&page, &accepted, &mut self.dice);
        let slip = match self.dice.below(8) {
            0 => accepted,
            1 => Slip {
                number: accepted.number - 1,
                ..other
            },
            _ => other,
        };
        let sender = self.odd_sender();
        self.network.send(seat, Message::Ack { seat: sender, slip });
    }

    /// While the council waits to hear of a seat, the honest acks of that number are sent to it once more: one that
    /// conflicts with what it has accepted, recorded before or not, brings its late P.
    fn send_disputed(&mut self) {
        for seat in self.honest() {
            for key in self.council.lacking(seat) {
                self.send_acks_again(seat, key);
            }
        }
    }

    /// Some of the honest acks of a number, if they are not on their way to the seat.
    fn send_acks_again(&mut self, seat: usize, key: Key) {
        for ack in self.acks.get(&key).cloned().unwrap_or_default() {
            if self.dice.once_in(4) && !self.network.is_on_its_way(seat, &ack) {
                self.network.send(seat, ack);
            }
        }
    }

    /// A bad seat, or a seat that there is not.
    fn odd_sender(&mut self) -> u8 {
        let bad = self.liars();
        if bad.is_empty() || self.dice.once_in(6) {
            return self.page().n + self.dice.below(3) as u8;
        }
        *self.dice.pick(&bad)
    }

    /// The seats in whose name acks are made up: the bad ones, or all if that premise is broken.
    fn liars(&self) -> Vec<u8> {
        let forged = self.plan.breach == Some(Breach::ForgedAcks);
        (0..self.page().n)
            .filter(|seat| forged || self.plan.bad[*seat as usize])
            .collect()
    }

    /// Balance questions, also for accounts that there are not.
    fn ask(&mut self) {
        let k = self.page().k;
        for seat in self.honest() {
            if self.dice.once_in(4) {
                let account = if self.dice.once_in(8) {
                    k
                } else {
                    self.dice.below(k.into()) as u8
                };
                self.network.send(seat, Message::Question { account });
            }
        }
    }

    /// The council rules, and sends old rulings to any seats once more.
    fn rule(&mut self) {
        let page = self.page();
        let other = |slip: &Slip, dice: &mut Dice| slips::other(&page, slip, dice);
        if self.plan.breach == Some(Breach::EarlyRuling) {
            for made in self.made.values() {
                self.council.rule_early(other(&made.slips[0], &mut self.dice));
            }
        }
        self.council.rule(self.plan.breach, other, &mut self.dice);
        for key in self.council.ruled() {
            for seat in self.honest() {
                if self.dice.once_in(24) {
                    self.send_ruling(seat, key);
                }
            }
        }
    }

    fn send_ruling(&mut self, seat: usize, key: Key) {
        if let Some(slip) = self.council.ruling(key, self.plan.breach, &mut self.dice) {
            self.network.send(seat, Message::Ruling(slip));
        }
    }

    /// What seats still lack for an account's next number is sent again: now and then, or always if all is calm.
    fn send_again(&mut self, calm: bool) {
        for seat in self.honest() {
            for account in 0..self.page().k {
                let key = (account, self.seats[&seat].closings()[account as usize].current + 1);
                let chance = if self.seats[&seat].accepted(key) { 16 } else { 2 };
                if calm || self.dice.once_in(chance) {
                    self.send_lacking(seat, key);
                }
            }
        }
    }

    fn send_lacking(&mut self, seat: usize, key: Key) {
        let own = seat as u8;
        let mut messages = self.acks.get(&key).cloned().unwrap_or_default();
        let acked = messages
            .iter()
            .any(|ack| matches!(ack, Message::Ack { seat, .. } if *seat == own));
        if let Some(made) = self.made.get(&key) {
            let told = made.told[seat];
            messages.extend(self.liars().iter().map(|liar| Message::Ack {
                seat: *liar,
                slip: told,
            }));
            if !acked && self.dice.once_in(2) {
                messages.push(Message::Slip(*self.dice.pick(&made.slips)));
            }
        }
        for message in messages {
            if !self.network.is_on_its_way(seat, &message) && !self.seats[&seat].took(&message) {
                self.network.send(seat, message);
            }
        }
        self.send_ruling(seat, key);
    }

    /// Brings each honest seat what the network gives it, one seat after the other in any order.
    fn deliver(&mut self, calm: bool) {
        let mut order = self.honest();
        for place in (1..order.len()).rev() {
            order.swap(place, self.dice.below(place as u64 + 1) as usize);
        }
        let (n, usual) = (self.plan.bad.len(), self.plan.batch as usize);
        for number in order {
            let seat = self.seats.get_mut(&number).expect("an honest seat");
            let most = match self.dice.below(4) {
                _ if calm => 2 * usual,
                0 => self.dice.below(usual as u64 + 1) as usize,
                _ => usual,
            };
            if !calm {
                self.network.thin_out(number, 4 * (usual + n), &mut self.dice);
            }
            let batch = self.network.draw(number, most.min(seat.room()), calm, &mut self.dice);
            let calls = seat.bring(&batch, self.plan.every_call, &mut self.record);
            calls.iter().for_each(|call| self.hear(call));
        }
    }

    /// What others do on a seat's reply.
    fn hear(&mut self, call: &Call) {
        match (call.message, call.reply) {
            (Message::Request(slip), Reply::Circulate) => self.network.send_to_all(Message::Slip(slip)),
            (Message::Slip(slip), Reply::Ack) => {
                let ack = Message::Ack {
                    seat: call.seat as u8,
                    slip,
                };
                self.acks.entry(key_of(&slip)).or_default().push(ack);
                self.network.send_to_all(ack);
            }
            (_, Reply::PutForward(slip)) => {
                let late = self.accepted.get(&(call.seat, slip.account)) == Some(&slip);
                self.council.see(call.seat, slip, late);
            }
            _ => {}
        }
        if let Some(slip) = call.accepted() {
            self.accepted.insert((call.seat, slip.account), slip);
        }
    }
}
