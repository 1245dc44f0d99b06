//! The text form: parsed, written, shown.

mod common;

use common::Chance;
use reference::book::{Message, OpeningPage, Slip};
use reference::bundle::{self, Fault};
use reference::written::{packed, parse, shown, written, Mistake};

const SLIP: Slip = Slip {
    account: 0,
    number: 1,
    value: 4,
    recipient: 1,
};

fn small_page() -> OpeningPage {
    let mut balances = [0; 32];
    balances[..2].copy_from_slice(&[10, 3]);
    OpeningPage {
        n: 6,
        f: 1,
        k: 2,
        balances,
    }
}

#[test]
fn every_kind_of_message() {
    let text = "\u{20}
# a comment, then a blank line

open n 6, f 1, k 2, balances 10 3   # another comment
slip (0, 1, 4, 1)
  ack 5 0 1 4 1
\truling(0,1,4,1)
request 0,1,4294967295,255
question 1
repeat 3 question 0\r
";
    let messages = [
        Message::Slip(SLIP),
        Message::Ack { seat: 5, slip: SLIP },
        Message::Ruling(SLIP),
        Message::Request(Slip {
            value: u32::MAX,
            recipient: 255,
            ..SLIP
        }),
        Message::Question { account: 1 },
        Message::Question { account: 0 },
        Message::Question { account: 0 },
        Message::Question { account: 0 },
    ];
    assert_eq!(parse(text), Ok(bundle::write(&small_page(), &messages)));
}

#[test]
fn damage() {
    let bytes = bundle::write(&small_page(), &[Message::Slip(SLIP)]);
    let mut damaged = bytes[..bytes.len() - 2].to_vec();
    damaged[10] = 6;
    damaged[11] = 255;
    damaged.extend([0, 255]);
    damaged[11] = 1;
    let text = "open n 6, f 1, k 2, balances 10 3\nslip (0, 1, 4, 1)\n";
    let lines = "byte 10 = 6\nbyte 11=255\ncut 2\nadd 0 255\nbyte 11 = 1\ncut 0\n";
    assert_eq!(parse(&format!("{text}{lines}")), Ok(damaged));
    assert_eq!(parse(&format!("{text}cut {}", bytes.len())), Ok(vec![]));
}

/// A text, the line of its mistake, and a part of what is said of it.
type Mistaken = (&'static str, usize, &'static str);

const WORDS: &str = "the words are open, request, slip, ack, ruling, question, repeat, byte, cut, add";
const OPENING: &str = "open n 6, f 1, k 2, balances 10 3\n";

/// Mistakes behind the line `OPENING`.
const BEHIND_OPENING: &[Mistaken] = &[
    ("slop (0, 1, 4, 1)", 2, "unknown word `slop`"),
    ("5 slip", 2, WORDS),
    (
        "# nothing\n\nslip 0 1 4",
        4,
        "too few numbers (3): `slip` takes account, number, value, recipient",
    ),
    (
        "ack (0, 1, 4, 1)",
        2,
        "too few numbers (4): `ack` takes seat, account, number, value, recipient",
    ),
    ("ruling", 2, "too few numbers (0): `ruling`"),
    ("question 1 2", 2, "too many numbers (2): `question` takes account"),
    ("request 0 1 4 1 1", 2, "too many numbers (5): `request`"),
    (
        "slip (256, 1, 4, 1)",
        2,
        "account has to be a number from 0 to 255 and is `256`",
    ),
    (
        "slip (0, 1, 4294967296, 1)",
        2,
        "value has to be a number from 0 to 4294967295 and is `4294967296`",
    ),
    (
        "slip (0, 1_0, 4, 1)",
        2,
        "number has to be a number from 0 to 4294967295 and is `1_0`",
    ),
    (
        "slip (0, 1, 4, -1)",
        2,
        "recipient has to be a number from 0 to 255 and is `-1`",
    ),
    ("slip (0, +1, 4, 1)", 2, "is `+1`"),
    ("ack 256 (0, 1, 4, 1)", 2, "seat has to be a number from 0 to 255"),
    ("question x", 2, "account has to be a number from 0 to 255 and is `x`"),
    (
        "slip 0 1 = 1",
        2,
        "value has to be a number from 0 to 4294967295 and is `=`",
    ),
    ("\nopen n 1, f 0, k 1", 3, "a second `open`"),
    (
        "repeat 1000 question 0",
        2,
        "repeat's count has to be a number from 1 to 999",
    ),
    (
        "repeat 0 question 0",
        2,
        "repeat's count has to be a number from 1 to 999",
    ),
    (
        "repeat question 0",
        2,
        "repeat's count has to be a number from 1 to 999 and is `question`",
    ),
    (
        "repeat 9",
        2,
        "`repeat` is written like this: repeat 9 request (0, 1, 1, 0)",
    ),
    (
        "repeat 2 repeat 2 question 0",
        2,
        "`repeat` takes a message, and `repeat` is none",
    ),
    (
        "repeat 2 open n 1, f 0, k 1",
        2,
        "`repeat` takes a message, and `open` is none",
    ),
    ("repeat 2 query 0", 2, "unknown word `query`"),
    (
        "repeat 999 question 0\nquestion 0",
        3,
        "too many messages: 1000 with this line",
    ),
    ("repeat 500 question 0\nrepeat 500 question 0", 3, "at most 999"),
    (
        "cut 1\nquestion 0",
        3,
        "a message behind a line with `byte`, `cut` or `add`",
    ),
    (
        "byte 141 = 0",
        2,
        "place 141 is behind the end: the bundle has 141 bytes",
    ),
    (
        "byte 0 = 256",
        2,
        "the byte has to be a number from 0 to 255 and is `256`",
    ),
    (
        "byte x = 6",
        2,
        "the place has to be a number from 0 to 4294967295 and is `x`",
    ),
    ("byte 10 6", 2, "`byte` is written like this: byte 10 = 6"),
    ("cut", 2, "too few numbers (0): `cut` takes count"),
    ("cut 141\ncut 1", 3, "cannot cut 1 bytes: the bundle has 0"),
    ("add", 2, "too few numbers (0): `add` takes one byte or more"),
    ("add 1 256", 2, "the byte has to be a number from 0 to 255 and is `256`"),
    ("slip (0, 1, 4, 1", 2, "a `(` is not closed in this line"),
    ("\nslip ((0, 1, 4, 1)", 3, "a `(` is not closed in this line"),
    ("slip (0, 1,\n4, 1)", 2, "a `(` is not closed in this line"),
    ("slip 0, 1, 4, 1)", 2, "a `)` closes no `(` of this line"),
    ("slip )0, 1, 4, 1(", 2, "a `)` closes no `(` of this line"),
    ("slip (0, 1, 4, 1 # )", 2, "a `(` is not closed in this line"),
    ("(", 2, "a `(` is not closed in this line"),
    (
        "\u{feff}question 0",
        2,
        "a byte order mark, which only the first line may begin with",
    ),
];

const FORM: &str = "`open` is written like this: open n 6, f 1, k 2, balances 10 3";

/// Mistakes in the opening, and texts that have none.
const IN_OPENING: &[Mistaken] = &[
    ("", 1, "there is no `open` line"),
    ("# only\n# comments\n", 2, "there is no `open` line"),
    (
        "\nquestion 0",
        2,
        "there is no `open` line before this `question`; it is written like this: open n 6, f 1, k 2, balances 10 3",
    ),
    ("cut 1", 1, "there is no `open` line"),
    ("\u{feff}", 1, "there is no `open` line"),
    ("\u{feff}\u{feff}open n 6, f 1, k 2", 1, "a byte order mark"),
    (" \u{feff}open n 6, f 1, k 2", 1, "a byte order mark"),
    ("open (n 6, f 1, k 2", 1, "a `(` is not closed in this line"),
    ("open", 1, FORM),
    ("open 6 1 2", 1, FORM),
    ("open n 6, f 1", 1, FORM),
    ("open n 6, f 1, k 2, 10 3", 1, FORM),
    (
        "open n 256, f 1, k 2",
        1,
        "n has to be a number from 0 to 255 and is `256`",
    ),
    ("open n 6, f x, k 2", 1, "f has to be a number from 0 to 255 and is `x`"),
    (
        "open n 6, f 1, k 300",
        1,
        "k has to be a number from 0 to 255 and is `300`",
    ),
    (
        "open n 6, f 1, k 2, balances 10 x",
        1,
        "a balance has to be a number from 0 to 4294967295 and is `x`",
    ),
];

fn assert_mistake(text: &str, line: usize, part: &str) {
    let mistake = parse(text).expect_err(text);
    assert_eq!(mistake.line, line, "{text:?}: {}", mistake.what);
    assert!(mistake.what.contains(part), "{text:?}: {}", mistake.what);
}

#[test]
fn mistakes() {
    for (text, line, part) in BEHIND_OPENING {
        assert_mistake(&format!("{OPENING}{text}"), *line, part);
    }
    for (text, line, part) in IN_OPENING {
        assert_mistake(text, *line, part);
    }
    let balances = "1 ".repeat(33);
    let text = format!("open n 6, f 1, k 2, balances {balances}");
    assert_mistake(&text, 1, "too many balances (33): `open` takes at most 32");
}

/// A byte order mark in front of the text and parentheses in a comment change nothing, nor do any that have their
/// partners.
#[test]
fn what_is_skipped() {
    let line = "slip (0, 1, 4, 1)\n";
    let due = Ok(bundle::write(&small_page(), &[Message::Slip(SLIP)]));
    for text in [
        format!("\u{feff}{OPENING}{line}"),
        format!("\u{feff}# )\n{OPENING}{line}# ((\n"),
        format!("{OPENING}slip ((0, 1), (4), 1) () # )"),
        format!("{OPENING}# \u{feff}\n{line}"),
    ] {
        assert_eq!(parse(&text), due, "{text:?}");
    }
}

/// An opening that is refused is packed as it is, and its line is named; one that is not brings no warning.
#[test]
fn warnings() {
    let cases = [
        (
            "open n 5, f 1, k 1",
            Some("1: f is 1, and 5 times f is not below n, which is 5"),
        ),
        ("open n 0, f 0, k 1", Some("1: n is 0 and not 1 to 16")),
        ("open n 6, f 1, k 0", Some("2: k is 0 and not 1 to 32")),
        (
            "open n 6, f 1, k 1, balances 1 2",
            Some("2: k is 1, and a balance behind the last account is not 0"),
        ),
        (
            "open n 6, f 1, k 2, balances 4294967295 1",
            Some("3: the opening sum is 4294967296 and not at most 4294967295"),
        ),
        ("open n 6, f 1, k 2, balances 4294967294 1", None),
    ];
    for (open, why) in cases {
        let packed = packed(&format!("# a comment\n{open}\nquestion 0\n")).expect(open);
        let due = why.map(|why| Mistake {
            line: 2,
            what: format!("the opening is refused with {why}"),
        });
        assert_eq!(packed.warning, due, "{open}");
        assert_eq!(written(&packed.bytes).expect(open).lines().count(), 2, "{open}");
        assert!(written(&packed.bytes).expect(open).starts_with(open), "{open}");
    }
}

#[test]
fn the_canonical_text() {
    let messages = [
        Message::Slip(SLIP),
        Message::Ack { seat: 0, slip: SLIP },
        Message::Ruling(SLIP),
        Message::Request(SLIP),
        Message::Question { account: 1 },
    ];
    let due = "open n 6, f 1, k 2, balances 10 3
slip (0, 1, 4, 1)
ack 0 (0, 1, 4, 1)
ruling (0, 1, 4, 1)
request (0, 1, 4, 1)
question 1
";
    assert_eq!(written(&bundle::write(&small_page(), &messages)), Ok(due.to_string()));
    assert_eq!(written(&[]), Err(Fault { code: 13, entry: 0 }));
}

#[test]
fn the_canonical_balances() {
    let zeros = |count| " 0".repeat(count);
    // k, how many balances are 1, the text behind k
    let cases = [
        (0, 0, String::new()),
        (0, 1, ", balances 1".to_string()),
        (2, 1, ", balances 1 0".to_string()),
        (1, 2, ", balances 1 1".to_string()),
        (32, 1, format!(", balances 1{}", zeros(31))),
        (200, 0, format!(", balances{}", zeros(32))),
        (200, 32, format!(", balances{}", " 1".repeat(32))),
    ];
    for (k, ones, behind) in cases {
        let mut page = OpeningPage {
            n: 1,
            f: 0,
            k,
            balances: [0; 32],
        };
        page.balances[..ones].fill(1);
        let bytes = bundle::write(&page, &[]);
        let text = format!("open n 1, f 0, k {k}{behind}\n");
        assert_eq!(parse(&text), Ok(bytes.clone()));
        assert_eq!(written(&bytes), Ok(text));
    }
}

#[test]
fn round_trips() {
    let mut chance = Chance(3);
    for case in 0..400 {
        let page = if case % 2 == 0 {
            chance.any_page()
        } else {
            chance.good_page()
        };
        let most = if case % 50 == 0 { 999 } else { 30 };
        let messages = chance.messages(most);
        let bytes = bundle::write(&page, &messages);
        let text = written(&bytes).expect("the bundle is sound");
        assert_eq!(parse(&text), Ok(bytes), "{text}");
        assert_eq!(text.lines().count(), 1 + messages.len(), "{text}");
    }
}

#[test]
fn shown_with_replies() {
    let text = "open n 8, f 1, k 2, balances 10 3
slip (0, 1, 4, 1)
ack 0 (0, 1, 4, 1)
ack 1 (0, 1, 4, 1)
ack 2 (0, 1, 4, 1)
ack 3 (0, 1, 5, 1)
ack 4 (0, 1, 5, 1)
ack 5 (0, 1, 5, 1)
ack 6 (0, 1, 6, 1)
question 12
";
    let due = "sound: 10 entries, 294 bytes
  entry  kind      seat  start         sum  body
      0  open         0     82  2149187324  open n 8, f 1, k 2, balances 10 3
      1  slip         0    213  2491206918  slip (0, 1, 4, 1)   -> A
      2  ack          0    223  2491206918  ack 0 (0, 1, 4, 1)  -> N
      3  ack          1    233  2491206918  ack 1 (0, 1, 4, 1)  -> N
      4  ack          2    243  2491206918  ack 2 (0, 1, 4, 1)  -> N
      5  ack          3    253  2492130439  ack 3 (0, 1, 5, 1)  -> N
      6  ack          4    263  2492130439  ack 4 (0, 1, 5, 1)  -> N
      7  ack          5    273  2492130439  ack 5 (0, 1, 5, 1)  -> N
      8  ack          6    283  2493053960  ack 6 (0, 1, 6, 1)  -> P 0 1 4 1
      9  question     0    293          12  question 12         -> R 5
= 0 10 0
= 1 3 0
";
    assert_eq!(shown(&parse(text).expect("the text is right")), due);
}

/// A late P is told as such, an ordinary one is not.
#[test]
fn shown_with_a_late_put_forward() {
    let text = "open n 2, f 0, k 2, balances 10 3
ruling (0, 1, 4, 1)
ack 0 (0, 2, 4, 1)
ack 1 (0, 2, 4, 0)
ack 1 (0, 1, 9, 1)
ack 1 (0, 1, 9, 1)
";
    let due = [
        "-> K 1",
        "-> N",
        "-> P 0 2 4 1",
        "-> P 0 1 4 1, late: the slip that was accepted",
        "-> R 6",
    ];
    let text = shown(&parse(text).expect("the text is right"));
    let replies: Vec<&str> = text
        .lines()
        .filter_map(|line| Some(&line[line.find("->")?..]))
        .collect();
    assert_eq!(replies, due);
}

/// The lines behind `OPENING`, and how the shown text begins.
const FAULTS: &[(&str, &str)] = &[
    (
        "cut 141",
        "refused with 13 at entry 0: m takes 2 bytes and the bundle has 0\n",
    ),
    (
        "byte 0 = 0",
        "refused with 13 at entry 0: m is 0 and not 1 to 1000 (bytes 0 and 1)\n",
    ),
    (
        "byte 1 = 4",
        "refused with 13 at entry 0: m is 1025 and not 1 to 1000 (bytes 0 and 1)\n",
    ),
    (
        "cut 132",
        "refused with 13 at entry 0: m is 1, so the contents end at byte 10, and the bundle at byte 9\n",
    ),
    (
        "byte 2 = 1",
        "refused with 14 at entry 0: its kind is 1 and not 0 (byte 2)\n",
    ),
    (
        "question 0\nbyte 10 = 6",
        "refused with 14 at entry 1: its kind is 6 and not 0 to 5 (byte 10)\n",
    ),
    (
        "question 0\nbyte 10 = 0",
        "refused with 14 at entry 1: its kind is 0, which only entry 0 has (byte 10)\n",
    ),
    (
        "question 0\nbyte 11 = 9",
        "refused with 14 at entry 1: its seat is 9 and not 0, as it is no ack (byte 11)\n",
    ),
    (
        "question 0\nbyte 13 = 1",
        "refused with 14 at entry 1: its start is 405 and not 149 (bytes 12 and 13)\n",
    ),
    (
        "cut 1",
        "refused with 15 at entry 0: the last body ends at byte 141 and the bundle at byte 140\n",
    ),
    (
        "add 0",
        "refused with 15 at entry 0: the last body ends at byte 141 and the bundle at byte 142\n",
    ),
    (
        "question 7\nbyte 149 = 8",
        "refused with 16 at entry 1: its sum is 7 and its body's is 8 (bytes 14 to 17)\n",
    ),
];

#[test]
fn shown_with_faults() {
    for (lines, start) in FAULTS {
        let text = shown(&parse(&format!("{OPENING}{lines}")).expect("the text is right"));
        assert!(text.starts_with(start), "{lines}: {text}");
    }
}

#[test]
fn the_first_fault_decides_and_a_later_one_is_marked_as_well() {
    let text = format!("{OPENING}question 0\nquestion 1\nbyte 11 = 1\nbyte 19 = 2");
    let text = shown(&parse(&text).expect("the text is right"));
    let marks: Vec<&str> = text.lines().skip(3).map(|line| line.split_at(7).0.trim_end()).collect();
    assert_eq!(marks, [">     1", "      2"]);
    assert_eq!(text.matches("<- 14: its seat is ").count(), 2, "{text}");
}

#[test]
fn shown_with_refused_openings() {
    let cases = [
        (
            "open n 5, f 1, k 1",
            "1: f is 1, and 5 times f is not below n, which is 5",
        ),
        ("open n 17, f 0, k 1", "1: n is 17 and not 1 to 16"),
        ("open n 6, f 1, k 33", "2: k is 33 and not 1 to 32"),
        (
            "open n 6, f 1, k 1, balances 1 2",
            "2: k is 1, and a balance behind the last account is not 0",
        ),
        (
            "open n 6, f 1, k 2, balances 4294967295 1",
            "3: the opening sum is 4294967296 and not at most 4294967295",
        ),
    ];
    for (text, why) in cases {
        let text = shown(&parse(text).expect("the text is right"));
        let lines: Vec<&str> = text.lines().collect();
        assert_eq!(
            lines[..2],
            [
                "sound: 1 entry, 141 bytes",
                &format!("the opening is refused with {why}")
            ]
        );
        assert_eq!(lines.len(), 4, "the head, the columns and entry 0: {text}");
    }
}

/// The first line tells what `check` tells, and a mark stands at the entry of a 14 or 16 and nowhere else.
fn assert_shown(bytes: &[u8]) {
    let text = shown(bytes);
    let marked: Vec<&str> = text.lines().filter(|line| line.starts_with('>')).collect();
    match bundle::check(bytes) {
        Ok(m) => {
            assert!(text.starts_with(&format!("sound: {m} ")), "{text}");
            assert!(marked.is_empty(), "{text}");
        }
        Err(Fault { code, entry }) => {
            let head = format!("refused with {code} at entry {entry}: ");
            let first = text.lines().next().unwrap_or("");
            assert!(first.starts_with(&head) && first.len() > head.len(), "{text}");
            let due = if code == 14 || code == 16 {
                vec![format!("> {entry:>5} ")]
            } else {
                vec![]
            };
            assert_eq!(marked.iter().map(|line| &line[..8]).collect::<Vec<_>>(), due, "{text}");
            assert!(!text.contains("->") && !text.contains("\n="), "no replies: {text}");
        }
    }
}

#[test]
fn shown_cut_short() {
    let mut chance = Chance(4);
    let sound = bundle::write(&chance.good_page(), &chance.messages(12));
    for length in 0..=sound.len() {
        assert_shown(&sound[..length]);
    }
}

#[test]
fn shown_damaged() {
    let mut chance = Chance(5);
    let sound = bundle::write(&chance.good_page(), &[Message::Slip(SLIP); 12]);
    let contents = bundle::bodies_start(13);
    for _ in 0..3000 {
        let mut bytes = sound.clone();
        for _ in 0..1 + chance.below(3) {
            // most of the damage goes to the contents
            let end = if chance.one_in(3) { bytes.len() } else { contents };
            let place = chance.below(end as u64) as usize;
            bytes[place] = if chance.one_in(2) {
                chance.below(7)
            } else {
                chance.any()
            } as u8;
        }
        if chance.one_in(4) {
            let length = chance.below(bytes.len() as u64 + 20) as usize;
            bytes.resize(length, 0);
        }
        assert_shown(&bytes);
    }
}

#[test]
fn shown_whatever_the_bytes() {
    let mut chance = Chance(6);
    for _ in 0..300 {
        let length = chance.below(400);
        let mut bytes: Vec<u8> = (0..length).map(|_| chance.any() as u8).collect();
        if bytes.len() > 1 {
            bytes[1] = chance.below(5) as u8;
        }
        assert_shown(&bytes);
    }
    assert_shown(&[255; 70_000]);
}
