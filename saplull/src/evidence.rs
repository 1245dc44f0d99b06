//! Evidence against a seat that acked two slips, from the bundles of two homes:
//!
//! ```
//! use saplull::{bundle, evidence, Account, Message, Page, Seat, Transfer};
//!
//! let slip = |recipient| Transfer { account: Account(0), number: 1, value: 4, recipient: Account(recipient) };
//! let acked = |recipient| Message::Ack { seat: Seat(3), transfer: slip(recipient) };
//! let page = Page::new(6, 1, &[10, 3, 0]);
//! let first = bundle::write(&page, &[acked(1)])?;
//! let second = bundle::write(&page, &[Message::Slip(slip(1)), acked(2)])?;
//!
//! let found = evidence::join(&first, &second, &slip(1))?.expect("seat 3 acked two slips");
//! assert_eq!((found.seat, found.first_entry, found.second_entry), (Seat(3), 1, 2));
//! assert_eq!((found.shown, found.transfer), (evidence::Which::Second, slip(2))); // not the ruled one
//! assert_eq!(evidence::join(&first, &first, &slip(1))?, None);
//! # Ok::<(), Box<dyn std::error::Error>>(())
//! ```

use crate::bundle::BundleFault;
use crate::foreign::{bundle_evidence, check_sizes, other_version, EVIDENCE_WORDS, TRANSFER_SIZE};
use crate::{Refusal, Seat, Transfer};
use std::error::Error;
use std::fmt;

/// One of the two bundles.
#[derive(Clone, Copy, Debug, PartialEq, Eq, Hash)]
pub enum Which {
    /// the first
    First,
    /// the second
    Second,
}

/// A seat's ack in the first bundle and one in the second, whose slips have equal accounts and numbers and differ.
#[derive(Clone, Copy, Debug, PartialEq, Eq)]
pub struct Evidence<'a> {
    /// who acked both
    pub seat: Seat,
    /// the entry of the ack in the first bundle; the opening page is entry 0
    pub first_entry: u16,
    /// the entry of the ack in the second bundle
    pub second_entry: u16,
    /// which bundle's ack is shown: the first's, unless its slip is the ruled one
    pub shown: Which,
    /// the body of the ack that is shown, a part of that bundle
    pub body: &'a [u8],
    /// what that body says
    pub transfer: Transfer,
}

/// Why two bundles are not joined.
#[derive(Clone, Copy, Debug, PartialEq, Eq)]
pub enum JoinFault {
    /// a bundle is refused; the second is looked at only where the first is sound
    Bundle(Which, BundleFault),
    /// the opening pages differ
    PagesDiffer,
}

impl JoinFault {
    /// Why, 13 to 16 or 21.
    pub fn code(&self) -> Refusal {
        match self {
            JoinFault::Bundle(_, fault) => fault.code,
            JoinFault::PagesDiffer => Refusal::PagesDiffer,
        }
    }
}

impl fmt::Display for JoinFault {
    fn fmt(&self, f: &mut fmt::Formatter<'_>) -> fmt::Result {
        match self {
            JoinFault::Bundle(Which::First, fault) => write!(f, "the first bundle: {fault}"),
            JoinFault::Bundle(Which::Second, fault) => write!(f, "the second bundle: {fault}"),
            JoinFault::PagesDiffer => write!(f, "{}", self.code()),
        }
    }
}

impl Error for JoinFault {}

/// The evidence in two bundles, if there is any: of all such pairs of acks the one with the lowest entry in the first
/// bundle, and of these the one with the lowest in the second. Acks count as they stand there, also those that a book
/// would refuse; only the seat has to be below n, which is the page's. Where no slip was ruled, one with number 0 will
/// do, which no book takes.
pub fn join<'a>(first: &'a [u8], second: &'a [u8], ruled: &Transfer) -> Result<Option<Evidence<'a>>, JoinFault> {
    check_sizes();
    let (ruled, mut reply) = (ruled.to_bytes(), [0; EVIDENCE_WORDS]);
    let (one, other) = (first.as_ptr(), second.as_ptr());
    // Safe: the lengths are those of the bundles, and slip and reply are as long as stated.
    unsafe { bundle_evidence(one, first.len(), other, second.len(), &ruled, &mut reply) };
    answered(first, second, reply)
}

/// What the library answers in these words.
fn answered<'a>(
    first: &'a [u8],
    second: &'a [u8],
    reply: [u32; EVIDENCE_WORDS],
) -> Result<Option<Evidence<'a>>, JoinFault> {
    match reply {
        [0, 0, ..] => Ok(None),
        [0, 1, seat, first_entry, second_entry, shown, start, slip @ ..] => {
            let shown = which(shown);
            let holder = match shown {
                Which::First => first,
                Which::Second => second,
            };
            Ok(Some(Evidence {
                seat: Seat(u8::try_from(seat).unwrap_or_else(|_| other_version("the seat of evidence", seat))),
                first_entry: entry(first_entry),
                second_entry: entry(second_entry),
                shown,
                body: body(holder, start),
                transfer: Transfer::answered(slip),
            }))
        }
        [0, found, ..] => other_version("how much evidence there is", found),
        [code, bundle, place, ..] => Err(refused(Refusal::answered(code), bundle, place)),
    }
}

fn refused(code: Refusal, bundle: u32, place: u32) -> JoinFault {
    match code {
        Refusal::PagesDiffer => JoinFault::PagesDiffer,
        code => {
            let entry = entry(place);
            JoinFault::Bundle(which(bundle), BundleFault { code, entry })
        }
    }
}

fn which(word: u32) -> Which {
    match word {
        1 => Which::First,
        2 => Which::Second,
        _ => other_version("the bundle of an answer", word),
    }
}

fn entry(word: u32) -> u16 {
    u16::try_from(word).unwrap_or_else(|_| other_version("the entry of an answer", word))
}

/// The body that starts there in the bundle.
fn body(bundle: &[u8], start: u32) -> &[u8] {
    let behind = usize::try_from(start).ok().and_then(|start| bundle.get(start..));
    let body = behind.and_then(|behind| behind.get(..TRANSFER_SIZE));
    body.unwrap_or_else(|| other_version("the start of a body", start))
}

#[cfg(test)]
mod tests {
    use super::{answered, Evidence, JoinFault, Which, EVIDENCE_WORDS, TRANSFER_SIZE};

    static FIRST: [u8; 12] = [0, 1, 2, 3, 4, 5, 6, 7, 8, 9, 10, 11];
    static SECOND: [u8; TRANSFER_SIZE] = [9, 8, 7, 6, 5, 4, 3, 2, 1, 0];

    /// What is said of these words, behind which there are zeros.
    fn told(words: &[u32]) -> Result<Option<Evidence<'static>>, JoinFault> {
        let mut reply = [0; EVIDENCE_WORDS];
        reply[..words.len()].copy_from_slice(words);
        answered(&FIRST, &SECOND, reply)
    }

    #[test]
    fn a_body_is_the_part_that_starts_there() {
        for (shown, start, due) in [(1, 0, &FIRST[..10]), (1, 2, &FIRST[2..]), (2, 0, &SECOND)] {
            let found = told(&[0, 1, 255, 999, 1, shown, start, 255, u32::MAX, 7, 254]);
            let found = found.expect("no refusal").expect("evidence");
            assert_eq!((found.seat.0, found.first_entry, found.second_entry), (255, 999, 1));
            assert_eq!(found.shown, [Which::First, Which::Second][shown as usize - 1]);
            assert_eq!(found.body.as_ptr_range(), due.as_ptr_range(), "bundle {shown}, {start}");
            let slip = found.transfer;
            assert_eq!((slip.account.0, slip.recipient.0), (255, 254));
            assert_eq!((slip.number, slip.value), (u32::MAX, 7));
        }
    }

    #[test]
    #[should_panic(expected = "how much evidence there is: 2, which the package saplull does not know")]
    fn another_count_is_told() {
        let _ = told(&[0, 2]);
    }

    #[test]
    #[should_panic(expected = "the seat of evidence: 256, which the package saplull does not know")]
    fn a_seat_that_is_no_byte_is_told() {
        let _ = told(&[0, 1, 256, 1, 1, 1, 0]);
    }

    #[test]
    #[should_panic(expected = "the entry of an answer: 65536, which the package saplull does not know")]
    fn another_entry_is_told() {
        let _ = told(&[0, 1, 0, 1, 65_536, 1, 0]);
    }

    #[test]
    #[should_panic(expected = "the bundle of an answer: 3, which the package saplull does not know")]
    fn another_bundle_is_told() {
        let _ = told(&[16, 3, 1]);
    }

    #[test]
    #[should_panic(expected = "the start of a body: 1, which the package saplull does not know")]
    fn a_body_that_does_not_fit_is_told() {
        let _ = told(&[0, 1, 0, 1, 1, 2, 1]);
    }

    #[test]
    #[should_panic(expected = "the start of a body: 4294967295, which the package saplull does not know")]
    fn a_start_behind_the_bundle_is_told() {
        let _ = told(&[0, 1, 0, 1, 1, 1, u32::MAX]);
    }

    #[test]
    #[should_panic(expected = "the account of a reply: 256, which the package saplull does not know")]
    fn an_account_that_is_no_byte_is_told() {
        let _ = told(&[0, 1, 0, 1, 1, 1, 0, 0, 1, 4, 256]);
    }

    #[test]
    #[should_panic(expected = "the code of a refusal: 22, which the package saplull does not know")]
    fn a_newer_code_is_told() {
        let _ = told(&[22]);
    }
}
