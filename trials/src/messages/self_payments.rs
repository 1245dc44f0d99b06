//! Messages whose slip pays its own payer, request 3 of document 02: the rows of a request or slip by which code
//! decides and which one stands behind 20, and of an ack or ruling by its reply.

use reference::book::{Book, Message, Reply};
use reference::rules::Rules;

pub const ROWS: [&str; 17] = [
    "request: 5 before 20",
    "request: 20 before 6",
    "request: 20 before 7",
    "request: 20 before 8",
    "request: 20 before 11",
    "request: 20 alone",
    "slip: 5 before 20",
    "slip: 20 before 6",
    "slip: 20 before 7",
    "slip: 20 before 8",
    "slip: 20 before 12",
    "slip: 20 before 11",
    "slip: 20 alone",
    "ack of a self-payment: N",
    "ack of a self-payment: K",
    "ack of a self-payment: P",
    "ruling for a self-payment: K",
];

/// The row of a message to this book and of its reply, letter and values, if the message's slip pays its own payer.
pub fn row(before: &Book, message: &Message, reply: &[&str]) -> Option<String> {
    let pays_itself = match message {
        Message::Request(slip) | Message::Slip(slip) | Message::Ack { slip, .. } | Message::Ruling(slip) => {
            slip.pays_itself()
        }
        Message::Question { .. } => false,
    };
    if !pays_itself {
        return None;
    }
    match (message, reply) {
        (Message::Request(_), ["R", code]) => Some(format!("request: {}", decided(before, message, code))),
        (Message::Slip(_), ["R", code]) => Some(format!("slip: {}", decided(before, message, code))),
        // a late P carries another slip
        (Message::Ack { .. }, ["P", ..]) if before.late(message).is_some() => None,
        (Message::Ack { .. }, [letter @ ("N" | "K" | "P"), ..]) => Some(format!("ack of a self-payment: {letter}")),
        (Message::Ruling(_), ["K", ..]) => Some("ruling for a self-payment: K".to_string()),
        _ => None,
    }
}

/// Which code decided, and which one would have without request 3.
fn decided(before: &Book, message: &Message, code: &str) -> String {
    match before.clone().under(Rules::First).call(message) {
        Reply::Refused(behind) if code == "20" => format!("20 before {behind}"),
        Reply::Refused(_) => format!("{code} before 20"),
        _ => format!("{code} alone"),
    }
}
