//! What a run is made of: the group, its opening page, its bad seats, when its seats switch, and how much happens.

use super::breach::Breach;
use super::council::Wait;
use super::lies::Lie;
use crate::shared::dice::Dice;
use reference::book::OpeningPage;
use reference::rules::Rules;

/// About so many messages at most are replayed in a run, over all seats and rounds: this sets how long it takes.
const REPLAYED: u64 = 400_000;

/// At most so many messages are brought to a seat in a run.
const MOST_BROUGHT: u64 = 900;

/// A seat's way through the sets of rules.
#[derive(Clone, Copy, PartialEq, Eq, Debug)]
pub struct Course {
    /// The rules that its book is opened under.
    pub start: Rules,
    /// The round, not the first, at whose beginning it switches to the next rules. It switches again after as many
    /// rounds, and once more after as many: under the newest rules that changes nothing. Until it has these it may also
    /// switch in any other round, if a slip waits there.
    pub switch: Option<u64>,
}

impl Course {
    /// The newest rules from the opening on.
    pub const NEWEST: Course = Course {
        start: Rules::NEWEST,
        switch: None,
    };

    pub fn switches_at(&self, round: u64) -> bool {
        self.switch.map_or(false, |at| (1..=3).any(|times| round == times * at))
    }
}

/// How many seats have the newest rules from the opening on, do not switch and switch in the middle, in parts.
const MIXTURES: [[u64; 3]; 4] = [[1, 0, 0], [1, 6, 1], [1, 2, 2], [1, 1, 6]];

/// A council that waits for n - f seats in a mixed group rules on fewer after so many rounds.
const PATIENCE: u64 = 6;

pub struct Plan {
    /// The page that each seat opens from.
    pub pages: Vec<OpeningPage>,
    pub bad: Vec<bool>,
    pub courses: Vec<Course>,
    pub wait: Wait,
    pub rounds: u64,
    /// So many of the rounds, the last ones, bring no new slips, and nothing is lost in them.
    pub calm: u64,
    /// At most so many messages to a seat in a round, or twice as many in a calm one.
    pub batch: u64,
    /// The closing lines are looked at after each single call, not only after each round.
    pub every_call: bool,
    /// A home makes conflicting slips once in so many times; 0 is never.
    pub contest: u64,
    /// A home pays itself once in so many times.
    pub to_itself: u64,
    pub breach: Option<Breach>,
}

impl Plan {
    /// A run that keeps the premises. Every n comes up in turn; f is often the largest.
    pub fn of_run(index: u64, dice: &mut Dice) -> Plan {
        let n = 1 + (index % 16) as usize;
        let largest = (n as u64 - 1) / 5;
        let f = if dice.once_in(4) {
            dice.below(largest + 1)
        } else {
            largest
        };
        let bad = if dice.once_in(4) { dice.below(f + 1) } else { f };
        let k = if dice.once_in(12) { 32 } else { dice.within(1, 8) };
        let page = page(n, f as usize, k, dice);
        let page = if dice.once_in(8) { scaled_up(page) } else { page };
        let every_call = dice.once_in(6);
        let (rounds, batch) = size(n as u64, every_call, dice);
        let mixture = *dice.pick(&MIXTURES);
        let wait = wait(mixture[1..] == [0, 0], n - f as usize, dice);
        Plan {
            pages: vec![page; n],
            bad: chosen(n, bad as usize, dice),
            courses: (0..n).map(|_| course(mixture, rounds, dice)).collect(),
            wait,
            rounds,
            calm: dice.below(2) * (rounds / 3),
            batch,
            every_call,
            contest: *dice.pick(&[0, 2, 3, 8]),
            to_itself: 6,
            breach: None,
        }
    }

    /// A run that aims at a failed check: conflicts at every number, so that the bad seats, the council or the liar
    /// can make something of them.
    pub fn aimed(breach: Breach, dice: &mut Dice) -> Plan {
        let (n, f, bad) = aimed_group(breach, dice);
        let (rounds, k) = match breach {
            // Slips have to wait.
            Breach::NothingRetained => (40, dice.within(4, 8)),
            // There has to be another recipient than the payer.
            _ => (10, dice.within(2, 3)),
        };
        let mut pages = vec![page(n, f, k, dice); n];
        if breach == Breach::TwoPages {
            let seat = dice.below(n as u64) as usize;
            pages[seat].balances[0] ^= 1;
        }
        let courses = aimed_courses(breach, n, rounds, dice);
        let all_newest = courses.iter().all(|course| *course == Course::NEWEST);
        Plan {
            pages,
            bad: chosen(n, bad, dice),
            courses,
            wait: aimed_wait(breach, all_newest, n - f, dice),
            rounds,
            calm: 0,
            batch: 4 * n as u64,
            every_call: false,
            contest: (breach != Breach::EarlyRuling) as u64,
            to_itself: if breach == Breach::RunAgain { 2 } else { 6 },
            breach: Some(breach),
        }
    }
}

/// n, f and the number of bad seats.
fn aimed_group(breach: Breach, dice: &mut Dice) -> (usize, usize, usize) {
    match breach {
        Breach::BadSeats { n, f, bad } => (n, f, bad),
        // Without conflicting acks nothing is put forward, which keeps an early ruling early.
        Breach::EarlyRuling => (6, 1, 0),
        // All acks are needed, so that seats put forward on equal ones, and halves are tied.
        Breach::Told(Lie::LastOfTied | Lie::TiedAtHand) => *dice.pick(&[(2, 0, 0), (4, 0, 0), (6, 0, 0)]),
        // One seat that acks twice is enough to part the two others.
        Breach::RunAgain => (3, 0, 0),
        _ => *dice.pick(&[(6, 1, 1), (8, 1, 1), (11, 2, 2)]),
    }
}

fn aimed_courses(breach: Breach, n: usize, rounds: u64, dice: &mut Dice) -> Vec<Course> {
    let of = |start, switch| vec![Course { start, switch }; n];
    match breach {
        Breach::RunAgain => {
            let mut courses = of(Rules::First, None);
            courses[dice.below(n as u64) as usize].switch = Some(1);
            courses
        }
        Breach::NothingRetained => of(Rules::NoSelfPayments, Some(rounds - 1)),
        _ => of(Rules::NEWEST, None),
    }
}

fn aimed_wait(breach: Breach, all_newest: bool, most: usize, dice: &mut Dice) -> Wait {
    match breach {
        // Bad seats put nothing forward, so with more than f of them n - f are never met.
        Breach::BadSeats { .. } => Wait::ForOne,
        Breach::NoWait => Wait::ForMost(most),
        _ => wait(all_newest, most, dice),
    }
}

/// An opening page with small balances, so that funds run out and slips wait.
fn page(n: usize, f: usize, k: u64, dice: &mut Dice) -> OpeningPage {
    let mut balances = [0; 32];
    let one_has_all = dice.once_in(2);
    for balance in &mut balances[..k as usize] {
        *balance = if one_has_all { 0 } else { dice.below(12) as u32 };
    }
    balances[dice.below(k) as usize] += dice.below(20) as u32;
    OpeningPage {
        n: n as u8,
        f: f as u8,
        k: k as u8,
        balances,
    }
}

/// The same page with balances as large as the opening sum lets them be.
fn scaled_up(mut page: OpeningPage) -> OpeningPage {
    let scale = u32::MAX / page.balances.iter().sum::<u32>().max(1);
    page.balances.iter_mut().for_each(|balance| *balance *= scale);
    page
}

/// One of the three sorts, by their parts; those that have not switched to the newest rules start under any of the
/// others.
fn course(mixture: [u64; 3], rounds: u64, dice: &mut Dice) -> Course {
    let [newest, never, _] = mixture;
    let part = dice.below(mixture.iter().sum());
    if part < newest {
        return Course::NEWEST;
    }
    Course {
        start: *dice.pick(&[Rules::First, Rules::NoSelfPayments]),
        switch: (part >= newest + never).then(|| dice.within(1, rounds - 1)),
    }
}

/// In half of the groups the council waits for so many seats, and if not all have the newest rules, then for a while.
fn wait(all_newest: bool, most: usize, dice: &mut Dice) -> Wait {
    match all_newest {
        _ if dice.once_in(2) => Wait::ForOne,
        true => Wait::ForMost(most),
        false => Wait::ForMostAWhile(most, PATIENCE),
    }
}

/// So many of n seats, any of them.
pub fn chosen(n: usize, count: usize, dice: &mut Dice) -> Vec<bool> {
    let mut chosen = vec![false; n];
    while chosen.iter().filter(|seat| **seat).count() < count {
        chosen[dice.below(n as u64) as usize] = true;
    }
    chosen
}

/// The rounds, and the messages to a seat in each, that replay up to `REPLAYED` messages: a seat's r-th replay has r
/// batches, or each of its messages has a replay of its own.
fn size(n: u64, every_call: bool, dice: &mut Dice) -> (u64, u64) {
    let rounds = dice.within(10, 70 + 60 / n);
    let batch = if every_call {
        let messages = (2.0 * REPLAYED as f64 / n as f64).sqrt() as u64;
        messages / rounds
    } else {
        2 * REPLAYED / (n * rounds * (rounds + 1))
    };
    (rounds, batch.min(MOST_BROUGHT / rounds).max(3))
}
