//! Request 7 of document 02, which seat acknowledged two slips: the join of two bundles.

use crate::book::{Message, OpeningPage, Slip};
use crate::bundle::{self, Fault};

/// One of the two bundles.
#[derive(Clone, Copy, PartialEq, Eq, Debug)]
pub enum Which {
    First,
    Second,
}

impl Which {
    /// Of two things, the one that belongs to this bundle.
    pub fn of<T>(self, [first, second]: [T; 2]) -> T {
        match self {
            Which::First => first,
            Which::Second => second,
        }
    }
}

/// What the join replies.
#[derive(Clone, Copy, PartialEq, Eq, Debug)]
pub enum Evidence<'a> {
    /// the seat acked two slips that conflict
    Found {
        seat: u8,
        /// where the two acks stand, in the first bundle and in the second; the page is entry 0
        entries: [usize; 2],
        /// whose body is shown, that body's bytes there, and the slip that they say
        shown: Which,
        body: &'a [u8],
        slip: Slip,
    },
    /// there is no such seat
    None,
    /// 13 to 16 of a bundle with the entry to be named, or 21, which is of neither
    Refused {
        code: u8,
        which: Option<Which>,
        entry: usize,
    },
}

/// An ack as it stands in a bundle, whatever a book would say to it.
struct Ack {
    entry: usize,
    seat: u8,
    slip: Slip,
}

/// Looks for an ack in the first bundle and one in the second, from the same seat below n, whose slips conflict: the
/// earliest entry in the first wins, then the earliest in the second. Of the two bodies the first bundle's is shown,
/// unless its slip is the ruled one.
pub fn join<'a>(first: &'a [u8], second: &'a [u8], ruled: &Slip) -> Evidence<'a> {
    checked(first, second, ruled).unwrap_or_else(|refused| refused)
}

/// The answer of two bundles that are not refused; Err is the refusal.
fn checked<'a>(first: &'a [u8], second: &'a [u8], ruled: &Slip) -> Result<Evidence<'a>, Evidence<'a>> {
    let (page, first_acks) = read(first, Which::First)?;
    let (second_page, second_acks) = read(second, Which::Second)?;
    if page != second_page {
        return Err(Evidence::Refused {
            code: 21,
            which: None,
            entry: 0,
        });
    }
    let (one, other) = match pair(page.n, &first_acks, &second_acks) {
        Some(pair) => pair,
        None => return Ok(Evidence::None),
    };
    let entries = [one.entry, other.entry];
    let shown = if one.slip == *ruled {
        Which::Second
    } else {
        Which::First
    };
    Ok(Evidence::Found {
        seat: one.seat,
        entries,
        shown,
        body: bundle::body(shown.of([first, second]), shown.of(entries)),
        slip: shown.of([one.slip, other.slip]),
    })
}

/// The opening page, which need not open a book, and the acks. Err is the refusal by 13 to 16.
fn read<'a>(bytes: &[u8], which: Which) -> Result<(OpeningPage, Vec<Ack>), Evidence<'a>> {
    let (page, messages) = bundle::read(bytes).map_err(|Fault { code, entry }| Evidence::Refused {
        code,
        which: Some(which),
        entry,
    })?;
    let ack = |(entry, message)| match message {
        Message::Ack { seat, slip } => Some(Ack { entry, seat, slip }),
        _ => None,
    };
    Ok((page, (1..).zip(messages).filter_map(ack).collect()))
}

/// The first pair, in the order of the first bundle and then of the second.
fn pair<'a>(n: u8, first: &'a [Ack], second: &'a [Ack]) -> Option<(&'a Ack, &'a Ack)> {
    for one in first {
        for other in second {
            if one.seat == other.seat && one.seat < n && one.slip.conflicts_with(&other.slip) {
                return Some((one, other));
            }
        }
    }
    None
}
