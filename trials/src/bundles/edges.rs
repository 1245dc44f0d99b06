//! Bundles at the limits, each with its name.

use crate::bundles::damage::put_starts_right;
use reference::book::{Message, OpeningPage, Slip};
use reference::bundle::write;

const MAX: u32 = u32::MAX;

pub struct Edge {
    pub name: String,
    pub bytes: Vec<u8>,
    /// what the documents give for it, said without the second program
    pub text: String,
}

pub fn edges() -> Vec<Edge> {
    let mut edges = refused_by_length();
    edges.extend(refused_by_m());
    edges.extend(sound());
    edges.extend(fullest());
    edges.extend((0..32).map(wait_of));
    edges
}

/// A sound bundle with a message of each kind, of 222 bytes.
pub fn one_of_each() -> Vec<u8> {
    let t = slip(0, 1, 4, 1);
    let messages = [
        Message::Request(t),
        Message::Slip(t),
        Message::Ack { seat: 5, slip: t },
        Message::Ruling(t),
        Message::Question { account: 1 },
    ];
    write(&OpeningPage::of(6, 1, &[10, 3]), &messages)
}

fn edge(name: &str, bytes: Vec<u8>, text: &str) -> Edge {
    let (name, text) = (name.to_string(), text.to_string());
    Edge { name, bytes, text }
}

fn slip(account: u8, number: u32, value: u32, recipient: u8) -> Slip {
    Slip {
        account,
        number,
        value,
        recipient,
    }
}

/// One seat, one account with these portions, and 999 messages.
fn full(balance: u32, message: impl Fn(u32) -> Message) -> Vec<u8> {
    let messages: Vec<Message> = (1..1000).map(message).collect();
    write(&OpeningPage::of(1, 0, &[balance]), &messages)
}

/// The longest bundle: bodies of 10 bytes behind the opening page. The only home pays itself.
fn longest() -> Vec<u8> {
    full(1, |_| Message::Request(slip(0, 1, 1, 0)))
}

/// A line for each of 999 entries.
fn lines(reply: impl Fn(u32) -> &'static str) -> String {
    (1..1000).map(|entry| format!("{entry} {}\n", reply(entry))).collect()
}

/// An opening page and requests, m entries in all, also more than there may be; every byte of a body is 0.
fn of_entries(m: usize) -> Vec<u8> {
    let mut bytes = (m as u16).to_le_bytes().to_vec();
    for entry in 0..m {
        bytes.extend([u8::from(entry > 0), 0, 0, 0, 0, 0, 0, 0]);
    }
    let bodies = 131 + 10 * (m - 1);
    bytes.resize(bytes.len() + bodies, 0);
    put_starts_right(&mut bytes);
    bytes
}

/// A bundle that is refused as a whole, or at entry 0.
fn refused(code: u8, name: &str, bytes: &[u8]) -> Edge {
    edge(name, bytes.to_vec(), &format!("F {code} 0\n"))
}

fn refused_by_length() -> Vec<Edge> {
    let small = one_of_each();
    let contents = 2 + 8 * 6;
    let longest = longest();
    let and = |more: &[u8]| [&longest, more].concat();
    vec![
        refused(13, "empty input", &[]),
        refused(13, "one byte, 0", &[0]),
        refused(13, "one byte, 1", &[1]),
        refused(13, "fewer than 2 + 8m bytes by one", &small[..contents - 1]),
        refused(15, "exactly 2 + 8m bytes", &small[..contents]),
        refused(15, "the last byte missing", &small[..small.len() - 1]),
        refused(15, "the longest bundle and one byte more", &and(&[0])),
        refused(15, "the longest bundle without its last byte", &longest[..18_122]),
        refused(15, "the longest bundle twice", &and(&longest)),
        refused(15, "the longest bundle in 1,000,000 bytes", &and(&vec![7; 981_877])),
        refused(14, "40,000 bytes of 1", &[1; 40_000]),
        refused(13, "40,000 bytes of 0", &[0; 40_000]),
        refused(14, "1,000,000 bytes of 1", &vec![1; 1_000_000]),
        refused(13, "1,000,000 bytes of 255", &vec![255; 1_000_000]),
    ]
}

fn refused_by_m() -> Vec<Edge> {
    let mut none = one_of_each();
    none[0] = 0;
    let full = of_entries(1000);
    vec![
        refused(13, "m 0 and nothing else", &[0, 0]),
        refused(13, "m 0 before a sound bundle's rest", &none),
        refused(13, "m 1 and nothing else", &[1, 0]),
        refused(15, "m 1,000 and its contents alone", &full[..8002]),
        refused(13, "m 1,000 and its contents without a byte", &full[..8001]),
        refused(13, "m 1,001 with all its bytes", &of_entries(1001)),
        refused(13, "m 65,535 and nothing else", &[255, 255]),
        refused(13, "m 65,535 with all its bytes", &of_entries(65_535)),
    ]
}

fn sound() -> Vec<Edge> {
    let shortest = write(&OpeningPage::of(1, 0, &[0]), &[]);
    let questions = full(7, |_| Message::Question { account: 0 });
    let balances = lines(|_| "B 7") + "= 0 7 0\n";
    let turned_down = lines(|_| "R 20") + "= 0 1 0\n";
    let each = "1 C\n2 A\n3 N\n4 K 1\n5 B 7\n= 0 6 1\n= 1 7 0\n";
    vec![
        edge(
            "m 1, the opening page alone, the shortest sound bundle",
            shortest,
            "= 0 0 0\n",
        ),
        edge("a message of each kind", one_of_each(), each),
        edge("m 1,000 with the shortest bodies", questions, &balances),
        edge("m 1,000, the longest bundle", longest(), &turned_down),
        highest_number(),
        all_portions(),
        chain(),
        all_wait(),
    ]
}

/// Every kind of slip with number 4,294,967,295, to another account and to the payer's own.
fn highest_number() -> Edge {
    let mut messages = Vec::new();
    for slip in [slip(0, MAX, 1, 1), slip(0, MAX, 1, 0)] {
        messages.extend([
            Message::Request(slip),
            Message::Slip(slip),
            Message::Ack { seat: 0, slip },
            Message::Ruling(slip),
        ]);
    }
    let text = "1 R 7\n2 R 7\n3 R 7\n4 R 7\n5 R 20\n6 R 20\n7 R 7\n8 R 7\n= 0 2 0\n= 1 0 0\n";
    edge(
        "number 4,294,967,295",
        write(&OpeningPage::of(1, 0, &[2, 0]), &messages),
        text,
    )
}

/// One account has all portions there can be, and pays them to another, which pays them to itself.
fn all_portions() -> Edge {
    let all = slip(0, 1, MAX, 1);
    let back = slip(1, 1, MAX, 1);
    let messages = [
        Message::Ruling(back),
        Message::Request(all),
        Message::Slip(all),
        Message::Ack { seat: 0, slip: all },
        Message::Question { account: 1 },
        Message::Slip(slip(0, 2, MAX, 0)),
        Message::Slip(slip(0, 2, MAX, 1)),
    ];
    let text = "1 K 0\n2 C\n3 A\n4 K 2\n5 B 4294967295\n6 R 20\n7 R 11\n= 0 0 1\n= 1 4294967295 1\n";
    edge(
        "balances and values of 4,294,967,295",
        write(&OpeningPage::of(1, 0, &[MAX, 0]), &messages),
        text,
    )
}

/// 31 rulings whose payers have nothing yet, from the last account to the first, and the one that books all of them.
fn chain() -> Edge {
    let mut balances = [0; 32];
    balances[31] = 5;
    let pays = |account: u8| Message::Ruling(slip(account, 1, 5, (account + 31) % 32));
    let messages: Vec<Message> = (0..32).map(pays).collect();
    let waits: String = (1..32).map(|entry| format!("{entry} K 0\n")).collect();
    let others: String = (0..31).map(|account| format!("= {account} 0 1\n")).collect();
    let text = format!("{waits}32 K 32\n{others}= 31 5 1\n");
    edge(
        "a chain of 32",
        write(&OpeningPage::of(16, 3, &balances), &messages),
        &text,
    )
}

/// Of 32 accounts with a portion each, these come to wait in this order, each for one portion more.
pub fn waits(accounts: &[u8]) -> (OpeningPage, Vec<Message>) {
    let ruling = |account: &u8| Message::Ruling(slip(*account, 1, 2, *account));
    (OpeningPage::of(1, 0, &[1; 32]), accounts.iter().map(ruling).collect())
}

/// Every account waits for one portion more than it has.
fn all_wait() -> Edge {
    let all: Vec<u8> = (0..32).collect();
    let (page, messages) = waits(&all);
    let waits: String = (1..33).map(|entry| format!("{entry} K 0\n")).collect();
    let accounts: String = (0..32).map(|account| format!("= {account} 1 0\n")).collect();
    edge("every account waits", write(&page, &messages), &(waits + &accounts))
}

/// This account waits, and no other.
pub fn wait_of(account: u8) -> Edge {
    let mut balances = [1; 32];
    balances[usize::from(account)] = 0;
    let bytes = write(
        &OpeningPage::of(1, 0, &balances),
        &[Message::Ruling(slip(account, 1, 31, 0))],
    );
    let lines: String = (0..32)
        .map(|other| format!("= {other} {} 0\n", u8::from(other != account)))
        .collect();
    edge(
        &format!("the wait of account {account}"),
        bytes,
        &format!("1 K 0\n{lines}"),
    )
}

/// As many messages as there can be, and the longest lines.
fn fullest() -> Vec<Edge> {
    let ack = |number| Message::Ack {
        seat: 0,
        slip: slip(0, number, 1, 0),
    };
    let booked = lines(|_| "K 1") + "= 0 1 999\n";
    let late = lines(|entry| if entry == 1 { "K 1" } else { "R 6" }) + "= 0 1 1\n";
    let asked = full(MAX, |_| Message::Question { account: 0 });
    let balances = lines(|_| "B 4294967295") + "= 0 4294967295 0\n";
    vec![
        edge("999 acks, each booked", full(1, ack), &booked),
        edge("999 acks, all but the first too late", full(1, |_| ack(1)), &late),
        edge("999 balances of 4,294,967,295", asked, &balances),
        acks_of_one_seat(),
        longest_line(),
    ]
}

/// Of two seats one acks again and again, in turn the same slip and another.
fn acks_of_one_seat() -> Edge {
    let ack = |entry: u32| Message::Ack {
        seat: 0,
        slip: slip(0, 1, 1 + entry % 2, 0),
    };
    let messages: Vec<Message> = (1..1000).map(ack).collect();
    let reply = |entry: u32| match (entry, entry % 2) {
        (1, _) => "N",
        (_, 1) => "R 9",
        _ => "R 10",
    };
    let text = lines(reply) + "= 0 2 0\n";
    edge(
        "999 acks, all but the first refused",
        write(&OpeningPage::of(2, 0, &[2]), &messages),
        &text,
    )
}

/// P with the longest fields that can be had: entry 999, account 31, a number of three digits, all portions,
/// recipient 31. Two of four acks are for that slip, one each for two others.
fn longest_line() -> Edge {
    let mut balances = [0; 32];
    balances[31] = MAX;
    let t = slip(31, 996, MAX, 31);
    let mut messages: Vec<Message> = (1..996).map(|number| Message::Ruling(Slip { number, ..t })).collect();
    for (seat, recipient) in (0..).zip([31, 30, 29, 31]) {
        messages.push(Message::Ack {
            seat,
            slip: Slip { recipient, ..t },
        });
    }
    let rulings: String = (1..996).map(|entry| format!("{entry} K 1\n")).collect();
    let others: String = (0..31).map(|account| format!("= {account} 0 0\n")).collect();
    let acks = "996 N\n997 N\n998 N\n999 P 31 996 4294967295 31\n";
    let text = format!("{rulings}{acks}{others}= 31 4294967295 995\n");
    edge(
        "the longest line",
        write(&OpeningPage::of(4, 0, &balances), &messages),
        &text,
    )
}
