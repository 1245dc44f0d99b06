//! The bytes of pages and messages.

mod common;

use common::{ack, transfer};
use saplull::{Account, Message, Page};

const NUMBER: u32 = 0x0403_0201;
const VALUE: u32 = 0x0807_0605;

#[test]
fn a_page() {
    let mut balances = [0; 32];
    balances[0] = NUMBER;
    balances[31] = VALUE;
    let bytes = Page::new(16, 3, &balances).to_bytes();
    assert_eq!(bytes[..7], [16, 3, 32, 1, 2, 3, 4]);
    assert_eq!(bytes[7..127], [0; 120]);
    assert_eq!(bytes[127..], [5, 6, 7, 8]);
    let bytes = Page::new(6, 1, &[10, 3]).to_bytes();
    assert_eq!(bytes[..11], [6, 1, 2, 10, 0, 0, 0, 3, 0, 0, 0]);
    assert_eq!(bytes[11..], [0; 120]);
}

#[test]
fn messages() {
    let slip = transfer(31, NUMBER, VALUE, 30);
    let due = |kind, seat| [kind, seat, 31, 1, 2, 3, 4, 5, 6, 7, 8, 30];
    assert_eq!(Message::Request(slip).record(), due(1, 0));
    assert_eq!(Message::Slip(slip).record(), due(2, 0));
    assert_eq!(ack(15, slip).record(), due(3, 15));
    assert_eq!(Message::Ruling(slip).record(), due(4, 0));
    assert_eq!(
        Message::Question(Account(31)).record(),
        [5, 0, 31, 0, 0, 0, 0, 0, 0, 0, 0, 0]
    );
}

#[test]
fn a_slip() {
    let slip = transfer(31, NUMBER, VALUE, 30);
    assert_eq!(slip.to_bytes(), [31, 1, 2, 3, 4, 5, 6, 7, 8, 30]);
}
