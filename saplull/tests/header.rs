//! `include/saplull.h` states the version, kinds, codes and sentences of this package, and no others.

mod common;

use common::{ack, file, transfer};
use saplull::{Account, LoadError, Message, Refusal};

/// The header with one space between any two words.
fn header() -> String {
    let text = String::from_utf8(file("include/saplull.h")).expect("a text");
    text.split_whitespace().collect::<Vec<_>>().join(" ")
}

/// BadGroup as BAD_GROUP
fn in_capitals(name: &str) -> String {
    let parts = (0..).zip(name.chars()).flat_map(|(place, letter)| {
        let gap = (place > 0 && letter.is_uppercase()).then_some('_');
        gap.into_iter().chain(letter.to_uppercase())
    });
    parts.collect()
}

fn stated(prefix: &str, name: String, code: u8, sentence: &str) {
    let line = format!("#define {prefix}{} {code} /* {sentence} */", in_capitals(&name));
    assert!(header().contains(&line), "include/saplull.h lacks: {line}");
}

#[test]
fn version() {
    let line = format!("#define SAPLULL_VERSION \"{}\" ", saplull::VERSION);
    assert!(header().contains(&line), "include/saplull.h lacks: {line}");
}

#[test]
fn codes() {
    for refusal in Refusal::ALL {
        stated(
            "SAPLULL_CODE_",
            format!("{refusal:?}"),
            refusal.code(),
            refusal.sentence(),
        );
    }
    assert_eq!(header().matches("#define SAPLULL_CODE_").count(), Refusal::ALL.len());
}

#[test]
fn loads() {
    for error in LoadError::ALL {
        stated("SAPLULL_LOAD_", format!("{error:?}"), error.code(), error.sentence());
    }
    assert_eq!(header().matches("#define SAPLULL_LOAD_").count(), LoadError::ALL.len());
}

#[test]
fn kinds() {
    let slip = transfer(0, 1, 4, 1);
    let all = [
        ("REQUEST", Message::Request(slip)),
        ("SLIP", Message::Slip(slip)),
        ("ACK", ack(0, slip)),
        ("RULING", Message::Ruling(slip)),
        ("QUESTION", Message::Question(Account(1))),
    ];
    for (name, message) in all {
        let line = format!("#define SAPLULL_KIND_{name} {} ", message.record()[0]);
        assert!(header().contains(&line), "include/saplull.h lacks: {line}");
    }
    assert_eq!(header().matches("#define SAPLULL_KIND_").count(), all.len());
}
