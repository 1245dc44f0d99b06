//! Ledgers that live: messages made beside a book of the second program, so that most are not refused, and so that
//! quorums, conflicts, put-forwards, late ones too, ties, waits and chains are frequent.

use crate::bundles::openings;
use crate::shared::dice::Dice;
use reference::book::{Account, Book, Message, OpeningPage, Slip};
use reference::bundle;

/// From so many messages on a bundle is long.
const LONG: usize = 200;
/// So many messages at least come to a book in which all accounts wait.
const AT_REST: usize = 24;

/// The bytes of a bundle with `most` messages (a few more or fewer where it begins with a chain over all accounts, or
/// ends with all of them waiting).
pub fn living(dice: &mut Dice, most: usize) -> Vec<u8> {
    let mut page = openings::sound(dice);
    if most >= LONG && dice.once_in(2) {
        // one seat accepts at once, so that numbers of three digits are booked
        (page.n, page.f) = (1, 0);
    }
    let k = usize::from(page.k);
    let mut life = Life::open(dice, page, most);
    if life.dice.once_in(8) {
        life.most = most.max(k + 1);
        life.chain(true);
    }
    let stops = life.dice.once_in(3);
    if stops {
        // room for the last rulings
        life.most = life.most.saturating_sub(k);
    }
    life.play();
    if stops {
        life.stop();
    }
    bundle::write(&life.page, &life.messages)
}

/// So many messages to a book that this page opens and that never comes to a stop, however long it lives.
pub fn lasting(dice: &mut Dice, page: &OpeningPage, most: usize) -> Vec<Message> {
    Life::last(dice, page, most).messages
}

/// So many messages to a book that lasts so, until near the end all accounts come to wait, for ever.
pub fn ending(dice: &mut Dice, page: &OpeningPage, most: usize) -> Vec<Message> {
    let mut life = Life::last(dice, page, most - usize::from(page.k) - AT_REST);
    life.stop();
    life.most = most;
    life.play();
    life.messages
}

/// A book and the messages that it has got.
struct Life<'a> {
    dice: &'a mut Dice,
    page: OpeningPage,
    book: Book,
    /// the opening sum
    sum: u32,
    /// many scenes play at this account, so that it comes to high numbers
    favourite: u8,
    messages: Vec<Message>,
    most: usize,
    /// no slip is accepted that could wait for ever
    lasts: bool,
}

impl<'a> Life<'a> {
    fn open(dice: &'a mut Dice, page: OpeningPage, most: usize) -> Life<'a> {
        let book = Book::open(&page).expect("a page that opens");
        let sum = page.balances.iter().sum();
        let favourite = dice.below(u64::from(page.k)) as u8;
        Life {
            dice,
            page,
            book,
            sum,
            favourite,
            messages: Vec::new(),
            most,
            lasts: false,
        }
    }

    /// A life of so many messages that never comes to a stop.
    fn last(dice: &'a mut Dice, page: &OpeningPage, most: usize) -> Life<'a> {
        let mut life = Life::open(dice, page.clone(), most);
        life.lasts = true;
        life.chain(true);
        while life.messages.len() < most {
            match life.dice.below(32) {
                0 => life.chain(true),
                1 | 2 => life.relief(),
                _ => life.scene(),
            }
        }
        life
    }

    /// A message comes. In a life that lasts, a slip that could wait for ever is only asked for.
    fn say(&mut self, message: Message) {
        match message {
            Message::Ack { slip, .. } | Message::Ruling(slip) if self.lasts && self.could_stop(slip) => {
                self.tell(Message::Request(slip))
            }
            _ => self.tell(message),
        }
    }

    /// Once there are as many messages as there may be, the book gets no more.
    fn tell(&mut self, message: Message) {
        if self.messages.len() < self.most {
            self.messages.push(message);
            self.book.call(&message);
        }
    }

    /// Scenes until there are as many messages as there may be.
    fn play(&mut self) {
        while self.messages.len() < self.most {
            self.scene();
        }
    }

    /// A few messages that belong together, at least one.
    fn scene(&mut self) {
        match self.dice.below(19) {
            0..=4 => self.vote(),
            5 => self.tie(),
            6 | 7 => self.pay(),
            8 => self.rule(),
            9 | 10 => self.wait(),
            11 => self.chain(false),
            12..=14 => self.odd(),
            15 => self.pay_itself(),
            16 => self.question(),
            _ => self.dispute(),
        }
    }

    // What the scenes are made of.

    /// Mostly an account that does not wait, and often the favourite.
    fn account(&mut self) -> u8 {
        let free = self.accounts_that_do_not_wait();
        if free.is_empty() || self.dice.once_in(10) {
            self.any_account()
        } else if free.contains(&self.favourite) && self.dice.once_in(2) {
            self.favourite
        } else {
            *self.dice.pick(&free)
        }
    }

    fn any_account(&mut self) -> u8 {
        self.dice.below(u64::from(self.page.k)) as u8
    }

    fn balance(&self, account: u8) -> u32 {
        self.book.balance(usize::from(account))
    }

    fn current(&self, account: u8) -> u32 {
        self.book.current(usize::from(account))
    }

    /// Whether an ack is recorded for the account's next number.
    fn has_acks(&self, account: u8) -> bool {
        let account = self.book.account(usize::from(account));
        account.acks.iter().any(Option::is_some)
    }

    /// What an account that waits lacks; 0 if none of its slips waits.
    fn lack(&self, account: u8) -> u32 {
        let account = self.book.account(usize::from(account));
        account.waiting.map_or(0, |slip| slip.value - account.balance)
    }

    /// As long as all that the waiting accounts lack is no more than what the others have, these can pay one of them,
    /// and then it is so again. Whether this slip, if it is accepted, could end that.
    fn could_stop(&self, slip: Slip) -> bool {
        if slip.account >= self.page.k || slip.value <= self.balance(slip.account) {
            return false;
        }
        let (mut free, mut lacking) = (0, 0);
        for account in 0..self.page.k {
            match self.lack(account) {
                0 => free += u64::from(self.balance(account)),
                lack => lacking += u64::from(lack),
            }
        }
        u64::from(slip.value) + lacking > free
    }

    /// A value that the account mostly can pay.
    fn value(&mut self, account: u8) -> u32 {
        let balance = self.balance(account);
        match self.dice.below(8) {
            0 => balance.max(1),
            1 => 1,
            2 if balance < self.sum => self.dice.portions(balance + 1, self.sum),
            _ => self.dice.portions(1, balance.max(1)),
        }
    }

    /// A slip with the account's next number.
    fn slip(&mut self, account: u8) -> Slip {
        let value = self.value(account);
        let recipient = if self.dice.once_in(5) {
            account
        } else {
            self.any_account()
        };
        Slip {
            account,
            number: self.current(account) + 1,
            value,
            recipient,
        }
    }

    /// A slip with the same account and number, and mostly with another value or recipient.
    fn rival(&mut self, slip: Slip) -> Slip {
        if self.dice.once_in(2) {
            Slip {
                recipient: (slip.recipient + 1) % self.page.k,
                ..slip
            }
        } else {
            Slip {
                value: self.value(slip.account),
                ..slip
            }
        }
    }

    /// This slip and others with its account and number, each once: so many, or fewer where few can be had.
    fn rivals(&mut self, slip: Slip, most: usize) -> Vec<Slip> {
        let mut slips = vec![slip];
        for _ in 0..4 * most {
            let model = *self.dice.pick(&slips);
            let rival = self.rival(model);
            if slips.len() < most && !slips.contains(&rival) {
                slips.push(rival);
            }
        }
        slips
    }

    /// All seats in any order.
    fn all_seats(&mut self) -> Vec<u8> {
        let mut seats: Vec<u8> = (0..self.page.n).collect();
        self.dice.shuffle(&mut seats);
        seats
    }

    /// All seats in any order, or some of them.
    fn seats(&mut self) -> Vec<u8> {
        let mut seats = self.all_seats();
        if self.dice.once_in(3) {
            let some = 1 + self.dice.place(seats.len());
            seats.truncate(some);
        }
        seats
    }

    /// The slip is accepted: by a ruling, or in a small group perhaps by acks.
    fn accept(&mut self, slip: Slip) {
        if self.page.n > 3 || self.lasts || self.dice.once_in(2) {
            self.say(Message::Ruling(slip));
            return;
        }
        for seat in 0..self.page.n {
            self.say(Message::Ack { seat, slip });
        }
    }

    // The scenes.

    /// Seats ack one, two or three slips with one number, some of them twice; then perhaps the council rules.
    fn vote(&mut self) {
        let account = self.account();
        let first = self.slip(account);
        let slips = [first, self.rival(first), self.rival(first)];
        let slips = &slips[..1 + self.dice.place(3)];
        if self.dice.once_in(2) {
            // this seat itself acks the slip that perhaps has the fewest acks
            self.say(Message::Slip(slips[slips.len() - 1]));
        }
        // how often a seat may ack another slip than the first
        let strife = *self.dice.pick(&[1, 2, 4]);
        for seat in self.seats() {
            let slip = if self.dice.once_in(strife) {
                *self.dice.pick(slips)
            } else {
                first
            };
            self.say(Message::Ack { seat, slip });
            if self.dice.once_in(10) {
                let slip = *self.dice.pick(slips);
                self.say(Message::Ack { seat, slip });
            }
        }
        if self.dice.once_in(3) {
            let slip = *self.dice.pick(slips);
            self.say(Message::Ruling(slip));
        }
    }

    /// The n - f acks at which a slip is put forward, at a number that has none: two, three or four slips get equally
    /// many, and one more slip what is left over. Then perhaps the council rules.
    fn tie(&mut self) {
        let mut accounts = self.accounts_that_do_not_wait();
        accounts.retain(|account| !self.has_acks(*account));
        if accounts.is_empty() {
            return self.rule();
        }
        let account = *self.dice.pick(&accounts);
        let (first, most) = (self.slip(account), 3 + self.dice.place(3));
        let slips = self.rivals(first, most);
        let last = slips.len() - 1;
        let acks = usize::from(self.page.n - self.page.f);
        let share = acks / last.clamp(1, acks);
        let mut acked: Vec<Slip> = (0..acks).map(|ack| slips[last.min(ack / share)]).collect();
        self.dice.shuffle(&mut acked);
        for (seat, slip) in self.all_seats().into_iter().zip(acked) {
            self.say(Message::Ack { seat, slip });
        }
        if self.dice.once_in(2) {
            let slip = *self.dice.pick(&slips);
            self.say(Message::Ruling(slip));
        }
    }

    /// A home asks, the slip is circulated and perhaps a rival too, and perhaps it is accepted.
    fn pay(&mut self) {
        let account = self.account();
        let slip = self.slip(account);
        if self.dice.once_in(2) {
            self.say(Message::Request(slip));
        }
        self.say(Message::Slip(slip));
        if self.dice.once_in(3) {
            let rival = self.rival(slip);
            self.say(Message::Slip(rival));
        }
        if self.dice.once_in(3) {
            self.accept(slip);
        }
    }

    /// A home pays itself, with fields at or beyond a limit or not, also while a slip of it waits or is acked. Messages
    /// of any kind bring the slip; then perhaps the seats ack it.
    fn pay_itself(&mut self) {
        let account = self.any_account();
        let mut slip = self.slip(account);
        if self.dice.once_in(3) {
            self.say(Message::Slip(slip));
        }
        if self.dice.once_in(2) {
            self.make_odd(&mut slip);
        }
        slip.recipient = slip.account;
        for _ in 0..self.dice.within(1, 3) {
            let seat = self.dice.below(u64::from(self.page.n)) as u8;
            let message = with_slip(self.dice, seat, slip);
            self.say(message);
        }
        if self.dice.once_in(3) {
            for seat in self.seats() {
                self.say(Message::Ack { seat, slip });
            }
        }
    }

    fn rule(&mut self) {
        let account = self.account();
        let slip = self.slip(account);
        self.say(Message::Ruling(slip));
    }

    fn question(&mut self) {
        let account = self.account();
        self.say(Message::Question { account });
    }

    /// A ruling waits because its payer lacks the funds, messages come too late for it, and mostly another account
    /// then pays what is missing.
    fn wait(&mut self) {
        let poor = self.account();
        let others = (0..self.page.k).filter(|account| *account != poor);
        let rich = others.max_by_key(|account| self.balance(*account)).unwrap_or(poor);
        let (has, gift) = (self.balance(poor), self.balance(rich));
        if rich == poor || gift == 0 {
            return self.rule();
        }
        let missing = self.dice.portions(1, gift);
        let slip = Slip {
            value: has + missing,
            ..self.slip(poor)
        };
        if self.dice.once_in(2) {
            self.voices(slip);
        }
        self.say(Message::Ruling(slip));
        for _ in 0..self.dice.below(4) {
            self.bring(slip);
        }
        if !self.dice.once_in(4) {
            let value = self.dice.portions(missing, gift);
            self.accept(Slip {
                account: rich,
                number: self.current(rich) + 1,
                value,
                recipient: poor,
            });
        }
    }

    /// Acks of some seats for this slip, or for one that conflicts with it.
    fn voices(&mut self, slip: Slip) {
        for seat in self.seats() {
            let slip = if self.dice.once_in(3) { slip } else { self.rival(slip) };
            self.say(Message::Ack { seat, slip });
        }
    }

    /// A message of any kind brings this slip, or one that conflicts with it.
    fn bring(&mut self, slip: Slip) {
        let slip = if self.dice.once_in(2) { slip } else { self.rival(slip) };
        let seat = self.dice.below(u64::from(self.page.n)) as u8;
        let message = with_slip(self.dice, seat, slip);
        self.say(message);
    }

    /// Acks for the number that an account accepted last, often while its slip waits: rivals of that slip, itself,
    /// recorded ones once more, or of a lower number; some come twice. None of them can be accepted.
    fn dispute(&mut self) {
        let waiting = |account: &Account| account.waiting.is_some();
        let only_waiting = self.dice.once_in(2);
        let accounts = (0..self.page.k).filter(|account| {
            let account = self.book.account(usize::from(*account));
            account.retained.is_some() && (!only_waiting || waiting(account))
        });
        let accounts: Vec<u8> = accounts.collect();
        if accounts.is_empty() {
            return self.rule();
        }
        let account = *self.dice.pick(&accounts);
        for _ in 0..self.dice.within(1, 4) {
            let seat = self.dice.below(u64::from(self.page.n)) as u8;
            if let Some(slip) = self.disputed(account, seat) {
                self.tell(Message::Ack { seat, slip });
                if self.dice.once_in(3) {
                    self.tell(Message::Ack { seat, slip });
                }
            }
        }
    }

    /// What this seat acks in a dispute about the slip that the account retains.
    fn disputed(&mut self, account: u8, seat: u8) -> Option<Slip> {
        let account = self.book.account(usize::from(account));
        let retained = account.retained?.slip;
        let recorded = account.acks[usize::from(seat)].filter(|ack| ack.number == retained.number);
        let rival = self.rival(retained);
        Some(match self.dice.below(8) {
            0 => retained,
            1 if retained.number > 1 => Slip {
                number: retained.number - 1,
                ..rival
            },
            2..=4 => recorded.unwrap_or(rival),
            _ => rival,
        })
    }

    /// Rulings that wait for each other's funds, in any order, and last the one that lets all of them be booked.
    fn chain(&mut self, over_all: bool) {
        let mut accounts = self.accounts_that_do_not_wait();
        self.dice.shuffle(&mut accounts);
        let payer = match accounts.iter().position(|account| self.balance(*account) > 0) {
            Some(place) if accounts.len() > 1 => place,
            _ => return self.question(),
        };
        accounts.swap(0, payer);
        if !over_all {
            let some = 2 + self.dice.place(accounts.len() - 1);
            accounts.truncate(some);
        }
        let mut slips = self.links(&accounts);
        let first = slips.remove(0);
        self.dice.shuffle(&mut slips);
        for slip in slips {
            // none waits for ever: the first lets all of them be booked
            self.tell(Message::Ruling(slip));
        }
        self.accept(first);
    }

    /// Accounts that do not wait pay one that does what it lacks, as far as they can.
    fn relief(&mut self) {
        let mut payers = self.accounts_that_do_not_wait();
        let waiting: Vec<u8> = (0..self.page.k).filter(|account| !payers.contains(account)).collect();
        if waiting.is_empty() {
            return self.question();
        }
        let poor = *self.dice.pick(&waiting);
        self.dice.shuffle(&mut payers);
        for account in payers {
            let value = self.balance(account).min(self.lack(poor));
            if value > 0 {
                let number = self.current(account) + 1;
                self.accept(Slip {
                    account,
                    number,
                    value,
                    recipient: poor,
                });
            }
        }
    }

    /// The end: in any order, each account that does not wait gets a ruling that it cannot pay, and once all wait
    /// nothing is booked any more. (An account that has all portions can pay any.)
    fn stop(&mut self) {
        let mut accounts = self.accounts_that_do_not_wait();
        self.dice.shuffle(&mut accounts);
        self.most = self.messages.len() + accounts.len();
        for account in accounts {
            let balance = self.balance(account);
            if balance < self.sum {
                let value = self.dice.portions(balance + 1, self.sum);
                let slip = self.slip(account);
                self.tell(Message::Ruling(Slip { value, ..slip }));
            }
        }
    }

    fn accounts_that_do_not_wait(&self) -> Vec<u8> {
        let free = |account: &u8| self.book.account(usize::from(*account)).waiting.is_none();
        (0..self.page.k).filter(free).collect()
    }

    /// Each account pays the next one; all but the first can pay only once the one before them has paid.
    fn links(&mut self, accounts: &[u8]) -> Vec<Slip> {
        let mut slips = Vec::new();
        let mut gift = 0;
        for (place, account) in accounts.iter().enumerate() {
            let balance = self.balance(*account);
            let value = if place == 0 {
                self.dice.portions(1, balance)
            } else {
                balance + self.dice.portions(1, gift)
            };
            let recipient = accounts[(place + 1) % accounts.len()];
            slips.push(Slip {
                account: *account,
                number: self.current(*account) + 1,
                value,
                recipient,
            });
            gift = value;
        }
        slips
    }

    /// A message with one or two fields at a limit or just beyond it.
    fn odd(&mut self) {
        let account = self.account();
        let mut slip = self.slip(account);
        for _ in 0..self.dice.within(1, 2) {
            self.make_odd(&mut slip);
        }
        let last = self.page.n - 1;
        let seat = *self.dice.pick(&[0, last, last, last, last + 1, 16, 255]);
        let message = if self.dice.once_in(6) {
            Message::Question {
                account: self.odd_account(),
            }
        } else {
            with_slip(self.dice, seat, slip)
        };
        self.say(message);
    }

    fn make_odd(&mut self, slip: &mut Slip) {
        let (balance, current) = (
            self.balance(slip.account % self.page.k),
            self.current(slip.account % self.page.k),
        );
        match self.dice.below(6) {
            0 => slip.account = self.odd_account(),
            1 => slip.recipient = self.odd_account(),
            2 | 3 => {
                slip.number = *self
                    .dice
                    .pick(&[0, current, current, current + 1, current + 2, u32::MAX])
            }
            _ => {
                let (more, above) = (balance.saturating_add(1), self.sum.saturating_add(1));
                slip.value = *self.dice.pick(&[0, 1, balance, more, more, self.sum, above, u32::MAX]);
            }
        }
    }

    fn odd_account(&mut self) -> u8 {
        let k = self.page.k;
        *self.dice.pick(&[0, k - 1, k - 1, k, 31, 32, 255])
    }
}

/// A message of any kind that has a slip.
pub fn with_slip(dice: &mut Dice, seat: u8, slip: Slip) -> Message {
    match dice.below(4) {
        0 => Message::Request(slip),
        1 => Message::Slip(slip),
        2 => Message::Ack { seat, slip },
        _ => Message::Ruling(slip),
    }
}
