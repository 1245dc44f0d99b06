//! What `daybook` printed, read back: the reply to each message and the closing line of each account.

use reference::book::{self, Slip};

/// A reply as the text shows it.
#[derive(Clone, Copy, PartialEq, Eq, Debug)]
pub enum Reply {
    Circulate,
    Ack,
    Accepted { booked: u32 },
    PutForward(Slip),
    Noted,
    Balance(u32),
    Refused { code: u32 },
}

/// As the second program gives it.
impl From<&book::Reply> for Reply {
    fn from(reply: &book::Reply) -> Reply {
        match *reply {
            book::Reply::Circulate => Reply::Circulate,
            book::Reply::Ack => Reply::Ack,
            book::Reply::Accepted { booked } => Reply::Accepted { booked },
            book::Reply::PutForward { slip } => Reply::PutForward(slip),
            book::Reply::Noted => Reply::Noted,
            book::Reply::Balance(balance) => Reply::Balance(balance),
            book::Reply::Refused(code) => Reply::Refused { code: code.into() },
        }
    }
}

/// An account's closing line, `= account balance current`.
#[derive(Clone, Copy, PartialEq, Eq, Debug)]
pub struct Closing {
    pub balance: u32,
    pub current: u32,
}

pub struct Printed {
    pub replies: Vec<Reply>,
    pub closings: Vec<Closing>,
}

/// Reads the text of a bundle with so many messages and accounts. Err says which line is not as it has to be.
pub fn read(text: &str, messages: usize, accounts: usize) -> Result<Printed, String> {
    let lines: Vec<&str> = text.lines().collect();
    if lines.len() != messages + accounts {
        let first = lines.first().unwrap_or(&"nothing");
        return Err(format!(
            "{} lines for {messages} messages and {accounts} accounts, first `{first}`",
            lines.len()
        ));
    }
    let (of_messages, of_accounts) = lines.split_at(messages);
    Ok(Printed {
        replies: (1..)
            .zip(of_messages)
            .map(|(entry, line)| reply_on(line, entry))
            .collect::<Result<_, _>>()?,
        closings: (0..)
            .zip(of_accounts)
            .map(|(account, line)| closing_on(line, account))
            .collect::<Result<_, _>>()?,
    })
}

fn reply_on(line: &str, entry: usize) -> Result<Reply, String> {
    let unread = || format!("`{line}` is no reply to entry {entry}");
    let rest = line.strip_prefix(&format!("{entry} ")).ok_or_else(unread)?;
    let mut words = rest.split(' ');
    let letter = words.next().unwrap_or("");
    let numbers = numbers_in(words).ok_or_else(unread)?;
    match (letter, numbers.as_slice()) {
        ("C", []) => Ok(Reply::Circulate),
        ("A", []) => Ok(Reply::Ack),
        ("N", []) => Ok(Reply::Noted),
        ("K", [booked]) => Ok(Reply::Accepted { booked: *booked }),
        ("B", [balance]) => Ok(Reply::Balance(*balance)),
        ("R", [code]) => Ok(Reply::Refused { code: *code }),
        ("P", [account, number, value, recipient]) if *account < 256 && *recipient < 256 => {
            Ok(Reply::PutForward(Slip {
                account: *account as u8,
                number: *number,
                value: *value,
                recipient: *recipient as u8,
            }))
        }
        _ => Err(unread()),
    }
}

fn closing_on(line: &str, account: u32) -> Result<Closing, String> {
    let unread = || format!("`{line}` is no closing line of account {account}");
    let rest = line.strip_prefix("= ").ok_or_else(unread)?;
    match numbers_in(rest.split(' ')).as_deref() {
        Some([number, balance, current]) if *number == account => Ok(Closing {
            balance: *balance,
            current: *current,
        }),
        _ => Err(unread()),
    }
}

fn numbers_in<'a>(words: impl Iterator<Item = &'a str>) -> Option<Vec<u32>> {
    words.map(|word| word.parse().ok()).collect()
}
