//! Words of any content, most of which no opening can make: openings over them, and messages to the book that they are.

use crate::books::held::same_words;
use crate::books::lent::{told, HeldWords, Lent, Sent, BLOCK, GROUP, REPLY, WORDS};
use crate::books::waiting::{self, Answer};
use crate::books::{handed, saved};
use crate::bundles::trial::caught;
use crate::messages::ledgers::with_slip;
use crate::messages::ties::{self, Ack};
use crate::shared::checks::Checks;
use crate::shared::daybook::{PAGE, UNTOUCHED};
use crate::shared::dice::Dice;
use crate::shared::seen::Seen;
use reference::book::{Account, Book, Message, Reply, Retained, Slip};
use reference::bundle::read_opening;

/// So many contents, each of which gets so many messages.
const CONTENTS: u64 = 8_000;
const MESSAGES: usize = 12;
/// One in so many messages is first handed over wrongly.
const WRONG_EACH: u64 = 20;

const MAX: u32 = u32::MAX;

/// Opens the page over words that are 0, that are all the same, and that are anything: each time the code has to be
/// this one. A refusal leaves every word; an opening replaces whatever the words held.
pub fn try_opening(checks: &mut Checks, dice: &mut Dice, what: &str, page: &[u8], code: u8) {
    let same = Lent {
        words: Box::new([u32::from_le_bytes([UNTOUCHED; 4]); WORDS]),
    };
    for before in [Lent::default(), same, content(dice)] {
        checks.same(what, opened(&before, page), Ok(code));
    }
}

/// The code of the opening, once the words after it are seen to be right.
fn opened(before: &Lent, page: &[u8]) -> Result<u8, String> {
    let mut lent = before.clone();
    let code = lent.open(page);
    if code > 0 {
        return same_words(before, &lent).map(|()| code);
    }
    if page.len() != PAGE {
        return Err(format!("opened, where the page has {} bytes", page.len()));
    }
    let page = read_opening(page);
    let book = Book::open(&page).map_err(|code| format!("opened, where {code} is due"))?;
    lent.holds(&page, &book).map(|()| code)
}

/// Messages to words that are 0, and to many contents, each of which is saved and loaded before.
pub fn try_messages(checks: &mut Checks, seed: u64) {
    let mut dice = Dice::of(seed, 0);
    for _ in 0..1_000 {
        let refused = refused_by_none(&mut dice);
        checks.same("words that are all 0", refused, Ok(()));
    }
    let mut seen = Seen::default();
    for index in 1..=CONTENTS {
        let mut dice = Dice::of(seed, index);
        let mut lent = content(&mut dice);
        let what = format!("content {index} of seed {seed}");
        checks.same(&what, saved::restored(&mut dice, &lent).map(drop), Ok(()));
        meet_some(checks, &mut dice, &mut lent, &mut seen, &what);
    }
    each_length(checks, &seen);
    let letters = ["C", "A", "K", "N", "B"].iter().chain(&ties::SIZES).chain(&LATE);
    let codes = (4..=12).chain([20]).map(|code| format!("R {code}"));
    seen.table(checks, letters.map(|row| row.to_string()).chain(codes));
    seen.table(checks, handed::ROWS);
}

/// Words of before request 5, of many contents, are taken over, and get messages.
pub fn try_switches(checks: &mut Checks, seed: u64) {
    let mut seen = Seen::default();
    for index in 1..=CONTENTS {
        let mut dice = Dice::of(seed, CONTENTS + index);
        let held = content(&mut dice).as_before();
        let mut lent = Lent::taken_over(&held);
        let what = format!("content {index} of seed {seed}, taken over");
        checks.same(&what, taken_over(&held, &lent), Ok(()));
        meet_some(checks, &mut dice, &mut lent, &mut seen, &what);
    }
    each_length(checks, &seen);
    // what is retained is just what waits
    seen.table(checks, &LATE[..1]);
}

fn meet_some(checks: &mut Checks, dice: &mut Dice, lent: &mut Lent, seen: &mut Seen, what: &str) {
    for _ in 0..MESSAGES {
        let met = caught(|| meet(dice, lent, seen)).and_then(|met| met);
        checks.same(what, met, Ok(()));
    }
}

/// Whether the words are the book that those of before request 5 were, and retain its waiting slips with their marks.
fn taken_over(held: &HeldWords, lent: &Lent) -> Result<(), String> {
    let before = Lent::widened(held);
    let words = |lent: &Lent| (group(lent), lent.words[GROUP + 3]);
    if words(lent) != words(&before) {
        return Err(format!("the group is {:?} and not {:?}", words(lent), words(&before)));
    }
    for account in 0..32 {
        let (mut due, now) = (before.account(account), lent.account(account));
        let put_forward = due.put_forward;
        due.retained = due.waiting.map(|slip| Retained { slip, put_forward });
        if now != due {
            return Err(format!("account {account} is {now:?} and not {due:?}"));
        }
    }
    Ok(())
}

/// Words that are all 0 are a book with no seats and no accounts: every message is refused, an ack by its seat; and
/// before that what is handed over wrongly.
fn refused_by_none(dice: &mut Dice) -> Result<(), String> {
    let mut lent = Lent::default();
    let message = message(dice, &lent);
    handed::refused(dice, &mut lent, &message)?;
    let reply = lent.call(&Sent::of(&message));
    let code = if let Message::Ack { .. } = message { 4 } else { 5 };
    if reply != told(&Reply::Refused(code)) {
        return Err(format!("{message:?}: {reply:?} and not the refusal by {code}"));
    }
    same_words(&Lent::default(), &lent)
}

/// One message, which is perhaps handed over wrongly before, and the waiting list after it.
fn meet(dice: &mut Dice, lent: &mut Lent, seen: &mut Seen) -> Result<(), String> {
    let before = lent.clone();
    let message = message(dice, lent);
    if dice.once_in(WRONG_EACH) {
        seen.add(handed::refused(dice, lent, &message)?);
    }
    let reply = lent.call(&Sent::of(&message));
    judge(&before, &message, reply, lent).map_err(|what| format!("{message:?}: {reply:?}: {what}"))?;
    seen.add(&row(&before, &message, reply, lent));
    let ask = |list: &mut [u8]| lent.waiting(list);
    let answer = waiting::compared(waiting::buffer(dice), ask, |list| listed(lent, list))?;
    if let Ok(count) = answer {
        seen.add(&list_of(count));
    }
    Ok(())
}

/// The row of a reply: its letter, and a refusal's code, or which P it is.
fn row(before: &Lent, message: &Message, reply: [u32; REPLY], after: &Lent) -> String {
    match reply[0] as u8 as char {
        'R' => format!("R {}", reply[1]),
        'P' => match late_in_place_of(before, message) {
            Some(row) => row.to_string(),
            // behind P stands the account
            None => ties::size(&recorded(&after.account(reply[1] as usize))).to_string(),
        },
        letter => letter.to_string(),
    }
}

/// The row of a waiting list with so many accounts.
fn list_of(count: usize) -> String {
    format!("list of {count}")
}

/// Each length of a waiting list has to occur.
fn each_length(checks: &mut Checks, seen: &Seen) {
    seen.each(checks, "lists of 0 to 32, each at least", (0..=32).map(list_of));
}

// What is made.

/// Words of any content. The group's are mostly in range, so that not every message is refused.
fn content(dice: &mut Dice) -> Lent {
    let mut lent = Lent::default();
    let full = dice.within(1, 8);
    for word in lent.words.iter_mut() {
        *word = if dice.below(8) < full { any_word(dice) } else { 0 };
    }
    let_wait(dice, &mut lent.words[..GROUP]);
    retain_near(dice, &mut lent.words[..GROUP]);
    put_in_range(dice, &mut lent.words[GROUP..]);
    lent
}

/// A slip waits at 0 to 32 of the accounts, each number of them as likely as any other.
fn let_wait(dice: &mut Dice, accounts: &mut [u32]) {
    let mut blocks: Vec<&mut [u32]> = accounts.chunks_mut(BLOCK).collect();
    dice.shuffle(&mut blocks);
    let waiting = dice.place(33);
    for (place, block) in blocks.into_iter().enumerate() {
        block[4] = if place < waiting { any_word(dice).max(1) } else { 0 };
    }
}

/// Each account's retained slip becomes mostly one of the current or the next number, and its mark is 0 more often.
fn retain_near(dice: &mut Dice, accounts: &mut [u32]) {
    for block in accounts.chunks_mut(BLOCK) {
        let current = block[1];
        block[40] = *dice.pick(&[current, current.wrapping_add(1), current.wrapping_add(1), block[40]]);
        block[42] = *dice.pick(&[0, block[42]]);
    }
}

/// n, f and k mostly become numbers up to their limits, and the opening sum a high one.
fn put_in_range(dice: &mut Dice, group: &mut [u32]) {
    for (word, limit) in group.iter_mut().zip([16, 3, 32]) {
        let within = dice.portions(0, limit);
        *word = *dice.pick(&[limit, limit, within, within, within, within, 256 + within, *word]);
    }
    group[3] = *dice.pick(&[300, MAX, MAX, MAX, group[3]]);
}

fn any_word(dice: &mut Dice) -> u32 {
    let any = dice.any() as u32;
    let small = dice.portions(0, 3);
    *dice.pick(&[0, 1, small, small, 31, 32, 255, 256, 257, 1 << 31, MAX - 1, MAX, any])
}

/// A message near what the words hold, so that each test is met and just missed.
fn message(dice: &mut Dice, lent: &Lent) -> Message {
    let [n, _, k] = group(lent);
    let account = mostly_below(dice, k);
    if dice.once_in(12) {
        return Message::Question { account };
    }
    let held = lent.account(usize::from(account) % 32);
    let next = held.current.wrapping_add(1);
    let any = any_word(dice);
    let seat = mostly_below(dice, n);
    let own = held.acks[usize::from(seat) % 16];
    let value = *dice.pick(&[held.balance, held.balance.wrapping_add(1), 1, any]);
    let recipient = if dice.once_in(4) {
        account
    } else {
        mostly_below(dice, k)
    };
    let number = *dice.pick(&[next, next, next, next, next, held.current, next.wrapping_add(1), any]);
    let slip = Slip {
        account,
        number,
        value,
        recipient,
    };
    // or a slip that is recorded, or the retained one, or one that conflicts with it
    let other = *dice.pick(&held.acks);
    let retained = held.retained.map(|retained| retained.slip);
    let rival = retained.map(|retained| Slip {
        number: retained.number,
        ..slip
    });
    let slip = dice
        .pick(&[None, None, None, own, other, retained, rival])
        .unwrap_or(slip);
    with_slip(dice, seat, slip)
}

fn mostly_below(dice: &mut Dice, limit: u32) -> u8 {
    if limit == 0 || dice.once_in(16) {
        return *dice.pick(&[0, limit as u8, 16, 31, 32, 255]);
    }
    dice.below(limit.into()) as u8
}

// What is due, by documents 01 and 02, of the accounts that the words are.

/// n, f and k; a number above its limit counts as 0.
fn group(lent: &Lent) -> [u32; 3] {
    let word = |place: usize, limit| Some(lent.words[GROUP + place]).filter(|word| *word <= limit);
    [word(0, 16), word(1, 16), word(2, 32)].map(|word| word.unwrap_or(0))
}

/// The rows of a late P by the code in whose place it comes; where that would be none, the ack would be recorded.
const LATE: [&str; 6] = [
    "late P for 8",
    "late P for 6",
    "late P for 7",
    "late P for 9",
    "late P for 10",
    "late P for none",
];

/// The row of a message that is answered by a late P.
fn late_in_place_of(lent: &Lent, message: &Message) -> Option<&'static str> {
    late(lent, message)?;
    let mut without = lent.clone();
    for block in without.words[..GROUP].chunks_mut(BLOCK) {
        block[39] = 0;
    }
    let code = refusal(&without, message);
    let row = code.map_or("late P for none".to_string(), |code| format!("late P for {code}"));
    LATE.into_iter().find(|listed| **listed == row)
}

/// The retained slip that is put forward late: an ack that meets neither 4 nor 5 conflicts with it, and its mark is 0.
fn late(lent: &Lent, message: &Message) -> Option<Slip> {
    let slip = match *message {
        Message::Ack { slip, .. } if out_of_range(lent, message).is_none() => slip,
        _ => return None,
    };
    let retained = lent.account(slip.account.into()).retained?;
    let conflict = retained.slip.number == slip.number && retained.slip != slip;
    (conflict && !retained.put_forward).then_some(retained.slip)
}

/// Codes 4 and 5.
fn out_of_range(lent: &Lent, message: &Message) -> Option<u8> {
    let [n, _, k] = group(lent);
    let unknown = |account: u8| u32::from(account) >= k;
    let slip = match *message {
        Message::Question { account } => return unknown(account).then_some(5),
        Message::Ack { seat, .. } if u32::from(seat) >= n => return Some(4),
        Message::Ack { slip, .. } | Message::Request(slip) | Message::Slip(slip) | Message::Ruling(slip) => slip,
    };
    let above = slip.value > lent.words[GROUP + 3];
    if unknown(slip.account) || unknown(slip.recipient) || slip.number == 0 || slip.value == 0 || above {
        return Some(5);
    }
    None
}

/// The code by which the message is refused.
fn refusal(lent: &Lent, message: &Message) -> Option<u8> {
    if let Some(code) = out_of_range(lent, message) {
        return Some(code);
    }
    let slip = match *message {
        Message::Question { .. } => return None,
        Message::Ack { .. } if late(lent, message).is_some() => return None,
        Message::Ack { slip, .. } | Message::Request(slip) | Message::Slip(slip) | Message::Ruling(slip) => slip,
    };
    let held = lent.account(slip.account.into());
    let funds = (slip.value > held.balance).then_some(11);
    match *message {
        Message::Request(_) | Message::Slip(_) if slip.pays_itself() => Some(20),
        _ if slip.number <= held.current => Some(6),
        _ if slip.number - held.current > 1 => Some(7),
        _ if held.waiting.map(|waiting| waiting.number) == Some(slip.number) => Some(8),
        Message::Ack { seat, .. } => held.acks[usize::from(seat)].map(|first| if first == slip { 9 } else { 10 }),
        Message::Slip(_) if held.acked => Some(12),
        Message::Slip(_) | Message::Request(_) => funds,
        _ => None,
    }
}

/// The waiting list: all accounts that wait, unless the buffer is too short.
fn listed(lent: &Lent, list: &mut [u8]) -> Answer {
    let accounts = lent.that_wait();
    let wanted = if list.len() < 32 { Err(17) } else { Ok(&accounts[..]) };
    waiting::written(wanted, list)
}

/// Whether this reply is right, and the words after it.
fn judge(before: &Lent, message: &Message, reply: [u32; REPLY], after: &Lent) -> Result<(), String> {
    if let Some(code) = refusal(before, message) {
        wanted(reply, &Reply::Refused(code))?;
        return same_words(before, after);
    }
    let mut accounts: Vec<Account> = (0..32).map(|account| before.account(account)).collect();
    let due = match *message {
        Message::Question { account } => Reply::Balance(accounts[usize::from(account)].balance),
        Message::Request(_) => Reply::Circulate,
        Message::Slip(slip) => {
            accounts[usize::from(slip.account)].acked = true;
            Reply::Ack
        }
        Message::Ack { slip, .. } if late(before, message).is_some() => put_forward_late(&mut accounts, slip),
        Message::Ack { seat, slip } => {
            let held = &mut accounts[usize::from(slip.account)];
            held.acks[usize::from(seat)] = Some(slip);
            tallied(before, held, slip).unwrap_or_else(|| accepted(&mut accounts, slip))
        }
        Message::Ruling(slip) => accepted(&mut accounts, slip),
    };
    wanted(reply, &due)?;
    stored(before, &accounts, after)
}

/// P with the slip that this one's account retains; its mark is set, and that is all.
fn put_forward_late(accounts: &mut [Account], slip: Slip) -> Reply {
    let retained = accounts[usize::from(slip.account)].retained.as_mut();
    let retained = retained.expect("a retained slip");
    retained.put_forward = true;
    Reply::PutForward { slip: retained.slip }
}

fn wanted(reply: [u32; REPLY], due: &Reply) -> Result<(), String> {
    if reply == told(due) {
        return Ok(());
    }
    Err(format!("the reply has to be {due:?}"))
}

/// The acks that are recorded for an account's next number, by their seats.
fn recorded(held: &Account) -> Vec<Ack> {
    let acks = (0..).zip(&held.acks);
    acks.filter_map(|(seat, slip)| Some((seat, (*slip)?))).collect()
}

/// The reply to an ack once it is recorded, unless its slip is accepted; P leaves its mark.
fn tallied(before: &Lent, held: &mut Account, slip: Slip) -> Option<Reply> {
    let [n, f, _] = group(before).map(|number| number as usize);
    let recorded = recorded(held);
    let equal = recorded.iter().filter(|(_, acked)| *acked == slip).count();
    if 2 * equal > n + 3 * f {
        return None;
    }
    if recorded.len() + f < n || recorded.len() == equal || held.put_forward {
        return Some(Reply::Noted);
    }
    held.put_forward = true;
    let slip = ties::tied(&recorded)[0];
    Some(Reply::PutForward { slip })
}

/// The slip is retained, with the mark of its number, and waits at its account; then, while some waiting slip's value
/// is at most its payer's balance, the one with the lowest account is booked.
fn accepted(accounts: &mut [Account], slip: Slip) -> Reply {
    let held = &mut accounts[usize::from(slip.account)];
    let put_forward = held.put_forward;
    (held.waiting, held.retained) = (Some(slip), Some(Retained { slip, put_forward }));
    let mut booked = 0;
    while let Some(slip) = accounts.iter().find_map(bookable) {
        book(accounts, slip);
        booked += 1;
    }
    Reply::Accepted { booked }
}

fn bookable(held: &Account) -> Option<Slip> {
    held.waiting.filter(|slip| slip.value <= held.balance)
}

/// Balances are kept modulo 2^32, and a recipient of 32 or more gets nothing.
fn book(accounts: &mut [Account], slip: Slip) {
    let payer = &mut accounts[usize::from(slip.account)];
    *payer = Account {
        balance: payer.balance - slip.value,
        current: slip.number,
        retained: payer.retained,
        ..Account::default()
    };
    if let Some(recipient) = accounts.get_mut(usize::from(slip.recipient)) {
        recipient.balance = recipient.balance.wrapping_add(slip.value);
    }
}

/// The words hold these accounts now; every word of the accounts that stay is as it was, and so is the group.
fn stored(before: &Lent, accounts: &[Account], after: &Lent) -> Result<(), String> {
    let mut kept = after.clone();
    for (account, due) in accounts.iter().enumerate() {
        let held = after.account(account);
        if held != *due {
            return Err(format!("account {account} is {held:?} and not {due:?}"));
        }
        if *due != before.account(account) {
            let block = account * BLOCK..(account + 1) * BLOCK;
            kept.words[block.clone()].copy_from_slice(&before.words[block]);
        }
    }
    same_words(before, &kept)
}
