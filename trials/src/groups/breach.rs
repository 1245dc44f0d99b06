//! What is broken on purpose, to show that the checks can fail: one premise, the text that `daybook` printed, a switch,
//! or the council's wait.

use super::demand3::{self, Check, Failure};
use super::evidence;
use super::late::Wrong;
use super::lies::Lie;
use super::plan::Plan;
use super::premises::{self, Premise};
use super::record::Record;
use super::world;
use crate::shared::dice::Dice;

#[derive(Clone, Copy, PartialEq, Eq, Debug)]
pub enum Breach {
    /// Acks name honest seats and carry what these never acked.
    ForgedAcks,
    /// Rulings for one account and number differ between seats.
    TwoRulings,
    /// A ruling before anything was put forward, while another slip gathers acks.
    EarlyRuling,
    /// A ruling for another slip than the one that all put forward.
    OtherRuling,
    /// So many bad seats in a group with this n and f.
    BadSeats { n: usize, f: usize, bad: usize },
    /// Seats open from different pages.
    TwoPages,
    /// The premises are kept, but the text is changed before it is read.
    Told(Lie),
    /// The premises are kept, but in the place of its switch a seat runs its old bundle again: the mark of a
    /// self-payment is lost.
    RunAgain,
    /// The premises are kept, but seats retain nothing when they switch to the newest rules.
    NothingRetained,
    /// The premises are kept, but a council that has to wait for n - f seats rules as soon as one has put something
    /// forward.
    NoWait,
}

/// Who has to notice it.
#[derive(Clone, Copy, PartialEq, Eq, Debug)]
pub enum Notice {
    /// The checks of demand 3 and of requests 2, 3 and 5 of document 02.
    Checks,
    /// The join of two honest seats' bundles: it finds an honest seat, or refuses them.
    Join,
}

impl Notice {
    /// What is noticed of a run in which this is broken.
    fn failures(self, breach: Breach, record: &Record, dice: &mut Dice) -> Vec<Failure> {
        let mut failures = match self {
            Notice::Checks => demand3::failures(record),
            Notice::Join => evidence::failures(evidence::joins(record, dice)),
        };
        failures.retain(|failed| self == Notice::Join || breach.shows_in(failed.check));
        failures
    }
}

impl Breach {
    /// All that is searched for, and who has to notice it.
    pub fn searches() -> Vec<(Breach, Notice)> {
        let by_checks = Breach::all().into_iter().map(|breach| (breach, Notice::Checks));
        let by_join = [Breach::ForgedAcks, Breach::RunAgain, Breach::TwoPages].map(|breach| (breach, Notice::Join));
        by_checks.chain(by_join).collect()
    }

    fn all() -> Vec<Breach> {
        let mut all = vec![
            Breach::ForgedAcks,
            Breach::TwoRulings,
            Breach::EarlyRuling,
            Breach::OtherRuling,
        ];
        for (n, f) in [(3, 0), (6, 1), (11, 2), (16, 3)] {
            all.push(Breach::BadSeats { n, f, bad: f + 1 });
        }
        all.push(Breach::TwoPages);
        all.extend([Lie::BalanceOneMore, Lie::AcceptedAsNoted, Lie::AcceptedTwice].map(Breach::Told));
        all.extend([Lie::LastOfTied, Lie::TiedAtHand].map(Breach::Told));
        all.extend(Wrong::ALL.map(Lie::PutForward).map(Breach::Told));
        all.extend([Breach::RunAgain, Breach::NothingRetained, Breach::NoWait]);
        all
    }

    pub fn name(self) -> String {
        let name = match self {
            Breach::ForgedAcks => "acks that name honest seats and carry what these never acked",
            Breach::TwoRulings => "rulings for one account and number that differ between seats",
            Breach::EarlyRuling => "a ruling before anything was put forward",
            Breach::OtherRuling => "a ruling for another slip than the one that all put forward",
            Breach::BadSeats { n, f, bad } => return format!("{bad} bad (f + {}) of n {n} seats with f {f}", bad - f),
            Breach::TwoPages => "seats that open from different pages",
            Breach::Told(Lie::BalanceOneMore) => "a text with a balance one more",
            Breach::Told(Lie::AcceptedAsNoted) => "a text with an N in the place of a K",
            Breach::Told(Lie::AcceptedTwice) => "a text with two K at one number",
            Breach::Told(Lie::LastOfTied) => "a text with P for the last of the tied slips",
            Breach::Told(Lie::TiedAtHand) => "a text with P for the tied slip at hand",
            Breach::Told(Lie::PutForward(Wrong::NoAck)) => "a text with a P on a ruling",
            Breach::Told(Lie::PutForward(Wrong::OtherNumber)) => "a text with a late P for the next number",
            Breach::Told(Lie::PutForward(Wrong::Again)) => "a text with a late P twice",
            Breach::Told(Lie::PutForward(Wrong::OtherSlip)) => "a text with a late P for the slip at hand",
            Breach::Told(Lie::PutForward(Wrong::NotDue)) => "a text with a late P on an equal ack",
            Breach::Told(Lie::PutForward(Wrong::Passed)) => "a text with a P for a number before the accepted one",
            Breach::Told(Lie::PutForward(Wrong::Missing)) => "a text with 6 or 8 in the place of a late P",
            Breach::RunAgain => "a seat that in the place of its switch runs its old bundle again, and loses a mark",
            Breach::NothingRetained => "seats that retain nothing at their switch",
            Breach::NoWait => "a council that does not wait for n - f seats",
        };
        name.to_string()
    }

    /// The one premise that it breaks.
    fn premise(self) -> Option<Premise> {
        match self {
            Breach::ForgedAcks => Some(Premise::OwnAcks),
            Breach::TwoRulings => Some(Premise::OneRuling),
            Breach::EarlyRuling => Some(Premise::PutForwardFirst),
            Breach::OtherRuling => Some(Premise::OnlyOnePutForward),
            Breach::BadSeats { .. } => Some(Premise::AtMostFBad),
            Breach::TwoPages => Some(Premise::OnePage),
            Breach::Told(_) | Breach::RunAgain | Breach::NothingRetained | Breach::NoWait => None,
        }
    }

    /// Whether this check has to notice it. Two acks, wrong put-forwards or an early ruling are only the way to books
    /// that part; where they are what is broken, they may part them too, but have to be noticed as such.
    fn shows_in(self, check: Check) -> bool {
        match self {
            Breach::Told(Lie::PutForward(wrong)) => check == Check::PutForward(wrong),
            Breach::NothingRetained => check == Check::PutForward(Wrong::Missing),
            Breach::NoWait => check == Check::Wait,
            _ => !matches!(check, Check::AckedOnce | Check::PutForward(_) | Check::Wait),
        }
    }

    /// The same with one bad seat more, if the number of bad seats is what it breaks and two honest seats are left.
    fn worse(self) -> Option<Breach> {
        match self {
            Breach::BadSeats { n, f, bad } if bad + 3 <= n => Some(Breach::BadSeats { n, f, bad: bad + 1 }),
            _ => None,
        }
    }
}

/// A run in which a check failed.
pub struct Found {
    /// What was broken in it, perhaps with more bad seats than at first.
    pub breach: Breach,
    pub runs: u64,
    pub how: String,
}

/// Looks for a run that breaks this premise and no other and in which this is noticed. Err says why there is none.
pub fn search(breach: Breach, notice: Notice, most: u64, dice: &mut Dice) -> Result<Found, String> {
    for runs in 1..=most {
        if let Some(how) = attempt(breach, notice, dice)? {
            return Ok(Found { breach, runs, how });
        }
    }
    match breach.worse() {
        Some(worse) => search(worse, notice, most, dice),
        None => Err(format!("no check failed in {most} runs")),
    }
}

/// One run. Some says how a check failed; Err that one failed although all premises were kept, or that a text could not
/// be read.
fn attempt(breach: Breach, notice: Notice, dice: &mut Dice) -> Result<Option<String>, String> {
    let plan = Plan::aimed(breach, dice);
    let record = world::run(plan, dice).record;
    let broken: Vec<Premise> = premises::broken(&record).into_keys().collect();
    let failed = match notice.failures(breach, &record, dice).into_iter().next() {
        Some(failed) => failed,
        None => return Ok(None),
    };
    let how = format!("{:?}: {}", failed.check, failed.what);
    let innocent = broken.is_empty() && breach.premise().is_some();
    if innocent || failed.check == Check::Text {
        return Err(format!("a check fails for another reason, {how}"));
    }
    let as_meant = broken == breach.premise().into_iter().collect::<Vec<_>>();
    Ok(Some(how).filter(|_| as_meant))
}
