//! Two bundles to be joined and a ruled slip: acks of few seats and slips, living ledgers dealt out, damaged bundles,
//! pages that differ, and bundles at the limits.

use crate::bundles::{damage, openings, wild};
use crate::evidence::joined::Given;
use crate::messages::ledgers;
use crate::shared::dice::Dice;
use reference::book::{Message, OpeningPage, Slip};
use reference::bundle;
use reference::evidence::{join, Evidence};

/// The sorts of pairs, each a column of the table.
pub const SORTS: [&str; 6] = ["few slips", "dealt out", "damaged", "pages", "the same", "limits"];

/// A pair of any sort: its place in `SORTS`, and what is handed over.
pub fn any(dice: &mut Dice) -> (usize, Given) {
    let (sort, [first, second]) = match dice.below(400) {
        0..=159 => (0, few_slips(dice)),
        160..=219 => (1, dealt_out(dice)),
        220..=329 => (2, damaged(dice)),
        330..=359 => (3, other_pages(dice)),
        360..=389 => (4, the_same(dice)),
        _ => (5, limits(dice)),
    };
    let ruled = ruled(dice, &first, &second);
    (sort, Given { first, second, ruled })
}

/// Where the acks of a pair come from: an honest seat acks one slip of an account and number, and each ack is another
/// once in so many times.
struct Source {
    n: u8,
    accounts: u64,
    numbers: u64,
    /// the byte in which the numbers differ
    place: u32,
    odd: u64,
}

impl Source {
    fn of(dice: &mut Dice, n: u8) -> Source {
        Source {
            n,
            accounts: dice.within(1, 3),
            numbers: dice.within(1, 3),
            place: dice.below(4) as u32,
            odd: *dice.pick(&[1, 4, 20, 100]),
        }
    }

    /// Seats around n, and the lowest.
    fn seat(&self, dice: &mut Dice) -> u8 {
        match dice.below(8) {
            0 => self.n,
            1 => *dice.pick(&[self.n.wrapping_add(1), 255]),
            2 | 3 => self.n.wrapping_sub(1),
            _ => dice.below(self.n.clamp(1, 3).into()) as u8,
        }
    }

    fn slip(&self, dice: &mut Dice, seat: u8) -> Slip {
        let account = dice.below(self.accounts) as u8;
        let number = dice.below(self.numbers) as u32;
        let kept = Slip {
            account,
            number: number << (8 * self.place),
            value: u32::from(seat % 3) + number,
            recipient: (account + seat % 2) % 3,
        };
        match dice.below(2 * self.odd) {
            0 => Slip {
                value: *dice.pick(&[0, 1, 2, 256, 1 << 24, u32::MAX]),
                ..kept
            },
            1 => Slip {
                recipient: *dice.pick(&[0, 1, 2, 3, 255]),
                ..kept
            },
            _ => kept,
        }
    }

    /// Mostly acks.
    fn message(&self, dice: &mut Dice) -> Message {
        let seat = self.seat(dice);
        let slip = self.slip(dice, seat);
        match dice.below(16) {
            0 => Message::Question { account: slip.account },
            1 | 2 => ledgers::with_slip(dice, seat, slip),
            _ => Message::Ack { seat, slip },
        }
    }

    fn messages(&self, dice: &mut Dice, count: u64) -> Vec<Message> {
        (0..count).map(|_| self.message(dice)).collect()
    }
}

/// A page that often opens no book: n is any.
fn page(dice: &mut Dice) -> OpeningPage {
    let mut page = openings::wild(dice);
    if dice.once_in(3) {
        page.n = *dice.pick(&[0, 1, 2, 99, 254, 255]);
    }
    page
}

/// Few different acks, so that many conflict.
fn few_slips(dice: &mut Dice) -> [Vec<u8>; 2] {
    let page = page(dice);
    let source = Source::of(dice, page.n);
    let most = *dice.pick(&[2, 8, 30]);
    [(); 2].map(|()| {
        let count = dice.below(most + 1);
        bundle::write(&page, &source.messages(dice, count))
    })
}

/// A living ledger whose messages go to the first, to the second or to both, in their order or in any.
fn dealt_out(dice: &mut Dice) -> [Vec<u8>; 2] {
    let count = dice.within(5, 60) as usize;
    let bytes = ledgers::living(dice, count);
    let (page, messages) = bundle::read(&bytes).expect("a sound bundle");
    [(); 2].map(|()| {
        let mut dealt: Vec<Message> = messages.iter().filter(|_| !dice.once_in(3)).copied().collect();
        if dice.once_in(2) {
            dice.shuffle(&mut dealt);
        }
        bundle::write(&page, &dealt)
    })
}

/// The first, the second or both damaged, or bytes of no sense in its place.
fn damaged(dice: &mut Dice) -> [Vec<u8>; 2] {
    let mut bundles = few_slips(dice);
    let places = *dice.pick(&[&[0][..], &[1], &[1], &[0, 1]]);
    for place in places {
        match dice.below(12) {
            0 => bundles[*place] = wild::bytes(dice),
            1 => bundles[*place].clear(),
            _ => damage::damage(dice, &mut bundles[*place]),
        }
    }
    bundles
}

/// The pages differ in a byte, in many, or in all.
fn other_pages(dice: &mut Dice) -> [Vec<u8>; 2] {
    let [first, second] = few_slips(dice);
    let (page, messages) = bundle::read(&second).expect("a sound bundle");
    let mut body = bundle::body(&second, 0).to_vec();
    let place = dice.place(body.len());
    body[place] ^= 1 << dice.below(8);
    let other = match dice.below(4) {
        0 => OpeningPage::of(page.n, page.f, &[]),
        1 => bundle::read_opening(&dice.bytes(131)),
        _ => bundle::read_opening(&body),
    };
    [first, bundle::write(&other, &messages)]
}

/// One bundle, brought by both homes.
fn the_same(dice: &mut Dice) -> [Vec<u8>; 2] {
    let [bytes, _] = few_slips(dice);
    [bytes.clone(), bytes]
}

/// As many acks as there can be, of which few conflict or none do; a page alone; no bytes.
fn limits(dice: &mut Dice) -> [Vec<u8>; 2] {
    let page = page(dice);
    match dice.below(5) {
        0 | 1 => longest(dice, &page),
        2 => [(); 2].map(|()| bundle::write(&page, &[])),
        3 => [Vec::new(), bundle::write(&page, &[])],
        _ => [bundle::write(&page, &[]), Vec::new()],
    }
}

fn longest(dice: &mut Dice, page: &OpeningPage) -> [Vec<u8>; 2] {
    let source = Source::of(dice, page.n);
    // no slip is another, so that all acks of a seat agree
    let source = Source {
        odd: u64::MAX / 2,
        ..source
    };
    let mut bundles = [(); 2].map(|()| {
        let ack = |_| loop {
            if let ack @ Message::Ack { .. } = source.message(dice) {
                return ack;
            }
        };
        (0..999).map(ack).collect::<Vec<Message>>()
    });
    if dice.once_in(2) {
        for messages in &mut bundles {
            let place = dice.place(messages.len());
            let slip = Source { odd: 1, ..source }.slip(dice, 0);
            messages[place] = Message::Ack { seat: 0, slip };
        }
    }
    bundles.map(|messages| bundle::write(page, &messages))
}

/// Any slip; or, where there is a pair, one of its two slips, or the first's with another field.
fn ruled(dice: &mut Dice, first: &[u8], second: &[u8]) -> Slip {
    let any = Source::of(dice, 3).slip(dice, 0);
    let entries = match join(first, second, &any) {
        Evidence::Found { entries, .. } => entries,
        _ => return any,
    };
    let slip = |bytes, entry| match bundle::read_message(bundle::ACK, 0, bundle::body(bytes, entry)) {
        Message::Ack { slip, .. } => slip,
        other => panic!("{other} is no ack"),
    };
    let (one, other) = (slip(first, entries[0]), slip(second, entries[1]));
    let near = [
        Slip {
            account: one.account ^ 1,
            ..one
        },
        Slip {
            number: one.number ^ (1 << dice.below(32)),
            ..one
        },
        Slip {
            value: one.value ^ (1 << dice.below(32)),
            ..one
        },
        Slip {
            recipient: one.recipient ^ 1,
            ..one
        },
    ];
    let near = *dice.pick(&near);
    *dice.pick(&[one, one, other, other, near, near, any])
}
