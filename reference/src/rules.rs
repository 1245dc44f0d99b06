//! The sets of rules that a seat may answer by, in the order of time. The book is written by the newest; an earlier set
//! is told here by how it differs, and asked for at the place of the difference.

#[derive(Clone, Copy, PartialEq, Eq, PartialOrd, Ord, Debug)]
pub enum Rules {
    /// Document 01 as it was: a home may pay itself, and P is free on a tie.
    First,
    /// Since request 3 of document 02, and with request 2.
    NoSelfPayments,
    /// Since request 5: a seat that has accepted puts its slip forward late.
    LateProposals,
}

impl Rules {
    /// Those of today.
    pub const NEWEST: Rules = Rules::LateProposals;
    /// All of them, the first first.
    pub const ALL: [Rules; 3] = [Rules::First, Rules::NoSelfPayments, Rules::LateProposals];

    /// The rules that a seat switches to. Behind the newest there are none, so a switch changes nothing.
    pub fn next(self) -> Rules {
        match self {
            Rules::First => Rules::NoSelfPayments,
            Rules::NoSelfPayments | Rules::LateProposals => Rules::LateProposals,
        }
    }

    /// Whether a home that pays itself is turned down, with code 20: request 3.
    pub fn turn_down_self_payments(self) -> bool {
        self >= Rules::NoSelfPayments
    }

    /// Whether P may carry any of the slips with the most acks, as before request 2.
    pub fn leave_ties_free(self) -> bool {
        self < Rules::NoSelfPayments
    }

    /// Whether the latest accepted slip is retained, and put forward late when an ack conflicts with it: request 5.
    pub fn put_forward_late(self) -> bool {
        self >= Rules::LateProposals
    }
}
