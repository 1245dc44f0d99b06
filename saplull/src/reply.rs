//! What a book replies to a message.

use crate::foreign::{other_version, REPLY_WORDS};
use crate::{Refusal, Transfer};
use std::fmt;

/// What a book replies to a message. It is shown as the program `daybook` shows it.
#[must_use = "a reply that is not sent is lost"]
#[non_exhaustive]
#[derive(Clone, Copy, Debug, PartialEq, Eq, Hash)]
pub enum Reply {
    /// C: circulate the slip
    Circulate,
    /// A: ack the slip
    Acknowledge,
    /// K: the slip is accepted
    Accepted {
        /// how many slips this call booked, of this payer and of others; also none
        booked: u32,
    },
    /// P: put this forward to the council
    PutForward(Transfer),
    /// N: the ack is noted
    Noted,
    /// B: the account's balance
    Balance(u32),
    /// R: the book is as it was
    Refused(Refusal),
}

impl Reply {
    /// The reply that the library writes in these words.
    pub(crate) fn answered(words: [u32; REPLY_WORDS]) -> Reply {
        let [letter, first, number, value, recipient] = words;
        match u8::try_from(letter) {
            Ok(b'C') => Reply::Circulate,
            Ok(b'A') => Reply::Acknowledge,
            Ok(b'K') => Reply::Accepted { booked: first },
            Ok(b'P') => Reply::PutForward(Transfer::answered([first, number, value, recipient])),
            Ok(b'N') => Reply::Noted,
            Ok(b'B') => Reply::Balance(first),
            Ok(b'R') => Reply::Refused(Refusal::answered(first)),
            Ok(other) => other_version("the letter of a reply", char::from(other).escape_default()),
            Err(_) => other_version("the letter of a reply", letter),
        }
    }
}

impl fmt::Display for Reply {
    fn fmt(&self, f: &mut fmt::Formatter<'_>) -> fmt::Result {
        match self {
            Reply::Circulate => write!(f, "C"),
            Reply::Acknowledge => write!(f, "A"),
            Reply::Accepted { booked } => write!(f, "K {booked}"),
            Reply::PutForward(t) => write!(f, "P {} {} {} {}", t.account.0, t.number, t.value, t.recipient.0),
            Reply::Noted => write!(f, "N"),
            Reply::Balance(balance) => write!(f, "B {balance}"),
            Reply::Refused(refusal) => write!(f, "R {}", refusal.code()),
        }
    }
}

#[cfg(test)]
mod tests {
    use super::Reply;

    fn shown(letter: u8, values: [u32; 4]) -> String {
        let [first, number, value, recipient] = values;
        Reply::answered([u32::from(letter), first, number, value, recipient]).to_string()
    }

    #[test]
    fn each_letter_is_shown_as_daybook_shows_it() {
        let all = u32::MAX;
        assert_eq!(shown(b'C', [0; 4]), "C");
        assert_eq!(shown(b'A', [0; 4]), "A");
        assert_eq!(shown(b'K', [32, 0, 0, 0]), "K 32");
        assert_eq!(shown(b'P', [31, all, 1, 30]), "P 31 4294967295 1 30");
        assert_eq!(shown(b'N', [0; 4]), "N");
        assert_eq!(shown(b'B', [all, 0, 0, 0]), "B 4294967295");
        assert_eq!(shown(b'R', [20, 0, 0, 0]), "R 20");
    }

    #[test]
    #[should_panic(expected = "the letter of a reply: V, which the package saplull does not know")]
    fn a_newer_letter_is_told() {
        shown(b'V', [0; 4]);
    }

    #[test]
    #[should_panic(expected = "the code of a refusal: 22, which the package saplull does not know")]
    fn a_newer_refusal_is_told() {
        shown(b'R', [22, 0, 0, 0]);
    }

    #[test]
    #[should_panic(expected = "the account of a reply: 256, which the package saplull does not know")]
    fn an_account_that_is_no_byte_is_told() {
        shown(b'P', [0, 1, 4, 256]);
    }
}
