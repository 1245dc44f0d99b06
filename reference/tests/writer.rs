//! Document 02's writer of bundles: its replies, and the buffer that is lent to it.

mod common;

use common::Chance;
use reference::book::{Message, OpeningPage, Slip};
use reference::bundle::{self, write_into};

const T: Slip = Slip {
    account: 0,
    number: 1,
    value: 4,
    recipient: 1,
};
/// What a lent buffer holds before.
const UNTOUCHED: u8 = 170;

fn page() -> OpeningPage {
    OpeningPage::of(6, 1, &[10, 3])
}

/// The reply with a buffer of this length, and the whole buffer after it.
fn written(page: &OpeningPage, messages: &[Message], length: usize) -> (Result<usize, u8>, Vec<u8>) {
    let mut buffer = vec![UNTOUCHED; length];
    let reply = write_into(page, messages, &mut buffer);
    (reply, buffer)
}

/// A refusal by this code, and the buffer as it was.
fn refused(code: u8, length: usize) -> (Result<usize, u8>, Vec<u8>) {
    (Err(code), vec![UNTOUCHED; length])
}

/// The bytes of a bundle with an ack from this seat and a question, put together by hand from document 01.
fn by_hand(seat: u8) -> Vec<u8> {
    let opening = [&[6, 1, 2, 10, 0, 0, 0, 3][..], &[0; 123]].concat();
    let ack = [0, 1, 0, 0, 0, 4, 0, 0, 0, 1];
    let mut bytes = vec![3, 0];
    for (kind, seat, start, body) in [(0, 0, 26, &opening[..]), (3, seat, 157, &ack), (5, 0, 167, &[1])] {
        bytes.extend([kind, seat, start, 0]);
        let mut sum: u64 = 0;
        for byte in body {
            sum = (31 * sum + u64::from(*byte)) % 4_294_967_296;
        }
        bytes.extend([sum, sum >> 8, sum >> 16, sum >> 24].map(|part| part as u8));
    }
    [&bytes[..], &opening, &ack, &[1]].concat()
}

#[test]
fn a_bundle_by_hand() {
    for seat in [0, 5, 200, 255] {
        let messages = [Message::Ack { seat, slip: T }, Message::Question { account: 1 }];
        assert_eq!(written(&page(), &messages, 168), (Ok(168), by_hand(seat)));
    }
}

#[test]
fn no_message() {
    let (reply, buffer) = written(&page(), &[], 141);
    assert_eq!(reply, Ok(141));
    assert_eq!(buffer[..6], [1, 0, 0, 0, 10, 0]);
    assert_eq!(bundle::read(&buffer), Ok((page(), vec![])));
    assert_eq!(written(&page(), &[], 140), refused(19, 140));
    assert_eq!(written(&page(), &[], 0), refused(19, 0));
}

#[test]
fn as_many_messages_as_there_can_be() {
    for (message, length) in [
        (Message::Request(T), bundle::LONGEST),
        (Message::Question { account: 0 }, 9_132),
    ] {
        let messages = vec![message; 999];
        let (reply, buffer) = written(&page(), &messages, length);
        assert_eq!(reply, Ok(length));
        assert_eq!(bundle::read(&buffer), Ok((page(), messages.clone())));
        assert_eq!(written(&page(), &messages, length - 1), refused(19, length - 1));
    }
}

/// 18 is tried first: it comes with no room too.
#[test]
fn one_message_too_many() {
    for count in [1_000, 1_001, 65_535, 65_536, 66_000] {
        let messages = vec![Message::Question { account: 0 }; count];
        for length in [0, 141, 9_132, 10 * count] {
            let what = format!("{count} messages, {length} bytes");
            assert_eq!(written(&page(), &messages, length), refused(18, length), "{what}");
        }
    }
}

/// Too short by one byte, just long enough, and longer, with any bytes before.
#[test]
fn every_buffer() {
    let mut chance = Chance(7);
    for _ in 0..200 {
        let (page, messages) = (chance.any_page(), chance.messages(60));
        let bytes = bundle::write(&page, &messages);
        let before: Vec<u8> = (0..bytes.len() + 50).map(|_| chance.any() as u8).collect();

        let short = chance.below(bytes.len() as u64) as usize;
        for length in [bytes.len() - 1, short] {
            let mut buffer = before[..length].to_vec();
            assert_eq!(write_into(&page, &messages, &mut buffer), Err(19));
            assert_eq!(buffer, before[..length]);
        }
        for behind in [0, 1, 50] {
            let length = bytes.len() + behind;
            let mut buffer = before[..length].to_vec();
            assert_eq!(write_into(&page, &messages, &mut buffer), Ok(bytes.len()));
            assert_eq!(buffer, [&bytes, &before[bytes.len()..length]].concat());
        }
    }
}

/// Reading what was written gives that page and that list.
#[test]
fn written_and_read() {
    let mut chance = Chance(8);
    for _ in 0..200 {
        let (page, messages) = (chance.any_page(), chance.messages(60));
        let mut buffer = vec![UNTOUCHED; bundle::LONGEST];
        let length = write_into(&page, &messages, &mut buffer).expect("there is room");
        assert_eq!(bundle::read(&buffer[..length]), Ok((page, messages)));
    }
}

/// Writing out what was read gives the bytes, also where no writer made them: each byte of a bundle takes each value,
/// and most of these bundles are refused.
#[test]
fn read_and_written_again() {
    let sound = by_hand(0);
    let mut read = 0;
    for place in 0..sound.len() {
        for byte in 0..=255 {
            let mut bytes = sound.clone();
            bytes[place] = byte;
            if let Ok((page, messages)) = bundle::read(&bytes) {
                assert_eq!(written(&page, &messages, bytes.len()), (Ok(bytes.len()), bytes));
                read += 1;
            }
        }
    }
    // the bytes as they are, 255 other seats of the ack, and three other kinds for it
    assert_eq!(read, sound.len() + 255 + 3);
}
