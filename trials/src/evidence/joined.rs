//! One call of the join tried: its reply is the second program's, it shows what it says, and it writes nothing else.

use crate::books::lent::Sent;
use crate::bundles::trial::caught;
use crate::shared::around;
use crate::shared::daybook::{self, EVIDENCE, SLIP_SIZE};
use crate::shared::dice::Dice;
use reference::book::{Message, Slip};
use reference::bundle;
use reference::evidence::{join, Evidence, Which};

/// The words of a reply.
pub type Words = [u32; EVIDENCE];

/// What is handed over.
#[derive(Clone)]
pub struct Given {
    pub first: Vec<u8>,
    pub second: Vec<u8>,
    pub ruled: Slip,
}

impl Given {
    pub fn bundles(&self) -> [&[u8]; 2] {
        [&self.first, &self.second]
    }

    /// The two bundles the other way round.
    pub fn turned(&self) -> Given {
        Given {
            first: self.second.clone(),
            second: self.first.clone(),
            ruled: self.ruled,
        }
    }

    /// What the second program replies.
    pub fn answer(&self) -> Evidence<'_> {
        join(&self.first, &self.second, &self.ruled)
    }
}

/// A slip's ten bytes, as a bundle's body has them.
pub fn slip_bytes(slip: &Slip) -> [u8; SLIP_SIZE] {
    let body = Sent::of(&Message::Ruling(*slip)).body;
    body.try_into().expect("a slip of ten bytes")
}

/// The second program's answer, once the exported function has replied the same.
pub fn tried<'a>(dice: &mut Dice, given: &'a Given) -> Result<Evidence<'a>, String> {
    caught(|| {
        let answer = given.answer();
        let (reply, due) = (reply(dice, given)?, told(&answer, given.bundles()));
        if reply != due {
            return Err(format!(
                "{} is ruled: the reply is {reply:?} and not {due:?}",
                given.ruled
            ));
        }
        shows(&reply, given)?;
        Ok(answer)
    })
    .and_then(|outcome| outcome)
}

/// What the exported function replies. The words of the reply hold anything before. The bundles, the bytes around them
/// and the words around the reply are left as they were.
pub fn reply(dice: &mut Dice, given: &Given) -> Result<Words, String> {
    let lent = given.bundles().map(|bytes| around::holding(dice, bytes));
    let mut words = [0; EVIDENCE + 2].map(|_: u32| dice.any() as u32);
    let (bytes_before, words_before) = (lent.clone(), words);
    let reply: &mut Words = (&mut words[1..=EVIDENCE]).try_into().expect("so many words");
    daybook::evidence(
        &lent[0][around::lent(given.first.len())],
        &lent[1][around::lent(given.second.len())],
        &slip_bytes(&given.ruled),
        reply,
    );
    let reply = *reply;
    for (name, place) in [("first", 0), ("second", 1)] {
        around::same(&lent[place], &bytes_before[place])
            .map_err(|what| format!("the {name} bundle or what is around it was changed: {what}"))?;
    }
    for place in [0, EVIDENCE + 1] {
        if words[place] != words_before[place] {
            return Err(format!("word {} of the reply was changed", place as i64 - 1));
        }
    }
    Ok(reply)
}

/// The words in which the exported function has to tell this answer.
pub fn told(answer: &Evidence, bundles: [&[u8]; 2]) -> Words {
    let number = |which: Which| which.of([1, 2]);
    match *answer {
        Evidence::None => [0; EVIDENCE],
        Evidence::Refused { code, which, entry } => refused(code.into(), which.map_or(0, number), entry as u32),
        Evidence::Found {
            seat,
            entries,
            shown,
            slip,
            ..
        } => {
            let start = bundle::entry(shown.of(bundles), shown.of(entries)).start;
            let [one, other] = entries.map(|entry| entry as u32);
            found([seat.into(), one, other, number(shown), start.into()], &slip)
        }
    }
}

/// The words of a refusal by this code of this bundle, at this entry.
pub fn refused(code: u32, which: u32, entry: u32) -> Words {
    [code, which, entry, 0, 0, 0, 0, 0, 0, 0, 0]
}

/// The words of a pair: the seat, both entries, the bundle of the body that is shown and where it starts; and its slip.
pub fn found([seat, one, other, which, start]: [u32; 5], slip: &Slip) -> Words {
    let (account, recipient) = (slip.account.into(), slip.recipient.into());
    let (number, value) = (slip.number, slip.value);
    [0, 1, seat, one, other, which, start, account, number, value, recipient]
}

/// Whether what a reply shows is the body of the ack at that entry, and not the ruled slip's.
fn shows(reply: &Words, given: &Given) -> Result<(), String> {
    let (bytes, entry, start) = match *reply {
        [0, 1, _, entry, _, 1, start, ..] => (&given.first, entry, start as usize),
        [0, 1, _, _, entry, 2, start, ..] => (&given.second, entry, start as usize),
        _ => return Ok(()),
    };
    let (_, messages) = bundle::read(bytes).map_err(|fault| format!("{fault:?} and found"))?;
    let there = bytes.get(start..start + SLIP_SIZE).unwrap_or_default();
    match messages[entry as usize - 1] {
        Message::Ack { slip, .. } if there == slip_bytes(&slip) && slip != given.ruled => Ok(()),
        other => Err(format!(
            "at {start} stands {there:?}, with {} ruled, and not {other}",
            given.ruled
        )),
    }
}
