//! Lies told in the place of `daybook`: changes to its printed text, which the checks have to notice.

use super::late::Wrong;
use super::record::key_of;
use crate::messages::ties::{tied, Ack, Arrivals};
use reference::book::{Book, Message, OpeningPage, Reply, Slip};
use reference::rules::Rules;
use std::collections::HashMap;

#[derive(Clone, Copy, PartialEq, Eq, Debug)]
pub enum Lie {
    /// The closing balance of account 0 is one more.
    BalanceOneMore,
    /// The first K is printed as N.
    AcceptedAsNoted,
    /// The first reply to a slip that conflicts with an accepted one is printed as K.
    AcceptedTwice,
    /// Each P carries, of the tied slips, the last by its lowest seat.
    LastOfTied,
    /// Each P carries the slip of the ack at hand, if it is one of the tied ones.
    TiedAtHand,
    /// Put-forwards that are wrong in this way.
    PutForward(Wrong),
}

impl Lie {
    /// The text of a bundle of this page and these messages, changed. A longer bundle is lied about at the same places.
    pub fn told(self, text: &str, page: &OpeningPage, messages: &[Message]) -> String {
        let mut lines: Vec<String> = text.lines().map(str::to_string).collect();
        match self {
            Lie::BalanceOneMore => balance_one_more(&mut lines[messages.len()]),
            Lie::AcceptedAsNoted => {
                let place = lines[..messages.len()].iter().position(|line| has_letter(line, "K"));
                put_reply(&mut lines, place, "N");
            }
            Lie::AcceptedTwice => {
                let place = second_place(&lines, messages);
                put_reply(&mut lines, place, "K 0");
            }
            Lie::LastOfTied => put_others_forward(&mut lines, messages, last_of_tied),
            Lie::TiedAtHand => put_others_forward(&mut lines, messages, tied_at_hand),
            Lie::PutForward(Wrong::Again) => late_again(&mut lines, messages),
            Lie::PutForward(Wrong::Missing) => late_refused(&mut lines, page, messages),
            Lie::PutForward(wrong) => put_forward_wrongly(&mut lines, messages, wrong),
        }
        lines.join("\n") + "\n"
    }
}

fn balance_one_more(line: &mut String) {
    let mut words: Vec<String> = line.split(' ').map(str::to_string).collect();
    let balance: u64 = words[2].parse().expect("a balance");
    words[2] = (balance + 1).to_string();
    *line = words.join(" ");
}

fn put_reply(lines: &mut [String], place: Option<usize>, reply: &str) {
    if let Some(place) = place {
        lines[place] = format!("{} {reply}", place + 1);
    }
}

fn has_letter(line: &str, letter: &str) -> bool {
    letter_of(line) == letter
}

fn letter_of(line: &str) -> &str {
    line.split(' ').nth(1).unwrap_or("")
}

/// The letter and what it carries.
fn reply_of(line: &str) -> String {
    line.split_once(' ').map_or("", |(_, reply)| reply).to_string()
}

/// Where the first ack or ruling stands that conflicts with a slip accepted before it.
fn second_place(lines: &[String], messages: &[Message]) -> Option<usize> {
    let mut accepted: HashMap<_, Slip> = HashMap::new();
    for (place, message) in messages.iter().enumerate() {
        let slip = match message {
            Message::Ack { slip, .. } | Message::Ruling(slip) => *slip,
            _ => continue,
        };
        match accepted.get(&key_of(&slip)) {
            Some(first) if *first != slip => return Some(place),
            None if has_letter(&lines[place], "K") => {
                accepted.insert(key_of(&slip), slip);
            }
            _ => {}
        }
    }
    None
}

/// Each ordinary P carries what is chosen of the acks that it rests on, of which the ack at hand is the last.
fn put_others_forward(lines: &mut [String], messages: &[Message], chosen: fn(&[Ack]) -> Option<Slip>) {
    let mut recorded = Arrivals::default();
    for (place, message) in messages.iter().enumerate() {
        let acks = recorded.take(message, letter_of(&lines[place]));
        if let Some(slip) = acks.and_then(chosen) {
            put_forward(lines, place, &slip);
        }
    }
}

fn put_forward(lines: &mut [String], place: usize, slip: &Slip) {
    let Slip {
        account,
        number,
        value,
        recipient,
    } = slip;
    put_reply(lines, Some(place), &format!("P {account} {number} {value} {recipient}"));
}

/// Where a slip of the account is accepted, an ack or ruling is answered P as `wrong_slip` has it.
fn put_forward_wrongly(lines: &mut [String], messages: &[Message], wrong: Wrong) {
    let mut latest: HashMap<u8, Slip> = HashMap::new();
    for (place, message) in messages.iter().enumerate() {
        let slip = match message {
            Message::Ack { slip, .. } | Message::Ruling(slip) => *slip,
            _ => continue,
        };
        let reply = reply_of(&lines[place]);
        if reply.starts_with('K') {
            latest.insert(slip.account, slip);
        } else if let Some(accepted) = latest.get(&slip.account) {
            let put = wrong_slip(wrong, message, &reply, accepted);
            put.iter().for_each(|put| put_forward(lines, place, put));
        }
    }
}

/// The slip that is put forward in this wrong way on a message that has this reply.
fn wrong_slip(wrong: Wrong, message: &Message, reply: &str, accepted: &Slip) -> Option<Slip> {
    let next = Slip {
        number: accepted.number + 1,
        ..*accepted
    };
    let is_late = |slip: &Slip| reply.starts_with('P') && slip.number == accepted.number;
    let refused = ["R 6", "R 8"].contains(&reply);
    match (wrong, message) {
        (Wrong::NoAck, Message::Ruling(slip)) if refused => Some(*slip),
        (Wrong::OtherNumber, Message::Ack { slip, .. }) if is_late(slip) => Some(next),
        (Wrong::OtherSlip, Message::Ack { slip, .. }) if is_late(slip) => Some(*slip),
        (Wrong::NotDue, Message::Ack { slip, .. }) if refused && slip == accepted => Some(*slip),
        (Wrong::Passed, Message::Ack { slip, .. }) if refused && slip.number < accepted.number => Some(*slip),
        _ => None,
    }
}

/// Each late P is printed as the refusal that stands in its place under the rules before.
fn late_refused(lines: &mut [String], page: &OpeningPage, messages: &[Message]) {
    let mut before = Book::open(page)
        .expect("a page that opens")
        .under(Rules::NoSelfPayments);
    for (place, message) in messages.iter().enumerate() {
        if let (Reply::Refused(code), "P") = (before.call(message), letter_of(&lines[place])) {
            put_reply(lines, Some(place), &format!("R {code}"));
        }
    }
}

/// Where an ack is refused whose slip has brought a late P before, that P is printed again.
fn late_again(lines: &mut [String], messages: &[Message]) {
    let mut recorded = Arrivals::default();
    let mut late: HashMap<Slip, String> = HashMap::new();
    for (place, message) in messages.iter().enumerate() {
        if let Message::Ack { slip, .. } = message {
            let refused = has_letter(&lines[place], "R");
            if has_letter(&lines[place], "P") && recorded.has_accepted(slip) {
                late.insert(*slip, reply_of(&lines[place]));
            } else if let (true, Some(reply)) = (refused, late.get(slip)) {
                put_reply(lines, Some(place), reply);
            }
        }
        recorded.take(message, letter_of(&lines[place]));
    }
}

fn last_of_tied(acks: &[Ack]) -> Option<Slip> {
    tied(acks).last().copied()
}

fn tied_at_hand(acks: &[Ack]) -> Option<Slip> {
    let (_, at_hand) = acks.last()?;
    tied(acks).into_iter().find(|slip| slip == at_hand)
}
