//! The reader of the known answers: what it gives, what it refuses, and that it notices a sort that is not there.

mod common;

use common::{ack, slip, T};
use reference::book::{Message, OpeningPage, Reply};
use reference::known::{AcksNeeded, Asked, Known, Opening, Sum, FILE};
use std::path::Path;

const FOLDER: &str = "../examples";

/// One line of each sort, and the example `tie_at_hand`.
const SMALL: &str = "# each sort once
acks n 6, f 1 -> 5
sum 1, 2 -> 33 # two bytes
open n 5, f 1, k 1 -> F 1 0

open n 6, f 1, k 2, balances 10 3
ack 5 (0, 1, 4, 1) -> P 0 1 4 1
request (0, 1, 4, 1) -> C
slip (0, 1, 4, 1) -> A
ruling (0, 1, 4, 1) -> K 4294967295
question 1 -> B 4294967295
question 2 -> R 255
waiting -> none
example tie_at_hand
waiting -> 31 0
";

fn parse(text: &str) -> Result<Known, String> {
    Known::parse(text, Path::new(FOLDER))
}

fn place(line: usize) -> String {
    format!("{FOLDER}/{FILE}:{line}")
}

#[test]
fn facts() {
    let known = parse(SMALL).expect("a right text");
    let acks_needed = AcksNeeded {
        place: place(2),
        n: 6,
        f: 1,
        count: 5,
    };
    let sum = Sum {
        place: place(3),
        bytes: vec![1, 2],
        sum: 33,
    };
    let opening = Opening {
        place: place(4),
        page: OpeningPage {
            k: 1,
            ..OpeningPage::of(5, 1, &[])
        },
        code: 1,
    };
    assert_eq!(known.acks_needed, [acks_needed]);
    assert_eq!(known.sums, [sum]);
    assert_eq!(known.openings, [opening]);
}

#[test]
fn a_book() {
    let known = parse(SMALL).expect("a right text");
    assert_eq!(known.plays.len(), 2);
    let play = &known.plays[0];
    assert_eq!(play.place, place(6));
    assert_eq!((&play.page, &play.example), (&OpeningPage::of(6, 1, &[10, 3]), &None));
    let steps = play.steps.iter().zip(7..);
    assert!(steps.clone().all(|(step, line)| step.place == place(line)));
    let asked: Vec<Asked> = steps.map(|(step, _)| step.asked.clone()).collect();
    let due = [
        Asked::Call(ack(5, T), Reply::PutForward { slip: T }),
        Asked::Call(Message::Request(T), Reply::Circulate),
        Asked::Call(Message::Slip(T), Reply::Ack),
        Asked::Call(Message::Ruling(T), Reply::Accepted { booked: u32::MAX }),
        Asked::Call(Message::Question { account: 1 }, Reply::Balance(u32::MAX)),
        Asked::Call(Message::Question { account: 2 }, Reply::Refused(255)),
        Asked::Waiting(vec![]),
    ];
    assert_eq!(asked, due);
}

#[test]
fn an_example() {
    let known = parse(SMALL).expect("a right text");
    let play = &known.plays[1];
    assert_eq!(
        (&play.place, &play.page),
        (&place(14), &OpeningPage::of(2, 0, &[10, 3]))
    );
    let u = slip(0, 1, 5, 1);
    let steps: Vec<_> = play
        .steps
        .iter()
        .map(|step| (&step.place[..], step.asked.clone()))
        .collect();
    let last = place(15);
    let due = [
        ("../examples/tie_at_hand.txt:1", Asked::Call(ack(0, T), Reply::Noted)),
        (
            "../examples/tie_at_hand.txt:2",
            Asked::Call(ack(1, u), Reply::PutForward { slip: T }),
        ),
        (&last, Asked::Waiting(vec![31, 0])),
    ];
    assert_eq!(steps, due);
    let example = play.example.as_ref().expect("an example");
    assert_eq!(example.text, "1 N\n2 P 0 1 4 1\n= 0 10 0\n= 1 3 0\n");
    assert_eq!(example.messages, [ack(0, T), ack(1, u)]);
    assert_eq!(example.bundle, Path::new("../examples/tie_at_hand.bundle"));
}

/// A line, and a part of what is said of it.
const WRONG: &[(&str, &str)] = &[
    ("acks n 6, f 1", "`acks` is written like this: acks n 6, f 1 -> 5"),
    ("acks 6 1 -> 5", "`acks` is written like this"),
    ("acks n 6, f 1 -> 5 5", "`acks` is written like this"),
    (
        "acks n 6, f 1 -> 0",
        "the count of acks has to be a number from 1 to 255 and is `0`",
    ),
    (
        "acks n 256, f 1 -> 5",
        "n has to be a number from 0 to 255 and is `256`",
    ),
    ("sum 1 2", "`sum` is written like this: sum 1 2 -> 33"),
    ("sum 1 2 ->", "`sum` is written like this"),
    (
        "sum 1 256 -> 33",
        "the byte has to be a number from 0 to 255 and is `256`",
    ),
    (
        "sum 1 2 -> x",
        "the sum has to be a number from 0 to 4294967295 and is `x`",
    ),
    (
        "open n 5, f 1, k 1 -> 1",
        "`open` is written like this: open n 5, f 1, k 1 -> F 1 0",
    ),
    ("open n 5, f 1, k 1 -> F 1 1", "`open` is written like this"),
    (
        "open n 5, f 1, k 1 -> F 4 0",
        "the code has to be a number from 1 to 3 and is `4`",
    ),
    (
        "open n 5, f 1 -> F 1 0",
        "`open` is written like this: open n 6, f 1, k 2, balances 10 3",
    ),
    (
        "open 5 1",
        "`open` is written like this: open n 6, f 1, k 2, balances 10 3",
    ),
    ("example", "`example` is written like this: example tie"),
    ("example tie -> K 1", "`example` is written like this"),
    ("example no_such", "no_such.page: No such file"),
    (
        "example wrong_sum",
        "wrong_sum.page is refused with 16: name a sound one",
    ),
    (
        "waiting",
        "`waiting` is written like this: waiting -> 2 3 4, or waiting -> none",
    ),
    ("waiting ->", "`waiting` is written like this"),
    ("waiting 0 -> 1", "`waiting` is written like this"),
    (
        "waiting -> none 1",
        "the account has to be a number from 0 to 255 and is `none`",
    ),
    (
        "question 1",
        "no reply: put it behind `->`, as C, A, N, K 1, B 7, P 0 1 4 1 or R 12",
    ),
    (
        "question 1 -> 7",
        "a reply is written like this: C, A, N, K 1, B 7, P 0 1 4 1 or R 12; and not `7`",
    ),
    ("question 1 -> B", "and not `B`"),
    ("question 1 -> N 1", "and not `N 1`"),
    (
        "question 1 -> B -7",
        "the balance has to be a number from 0 to 4294967295 and is `-7`",
    ),
    (
        "question 1 -> R 256",
        "the code has to be a number from 0 to 255 and is `256`",
    ),
    (
        "question 1 -> P 0 1 4",
        "too few numbers (3): `P` takes account, number, value, recipient",
    ),
    ("question 1 -> B 7 -> B 7", "and not `B 7 -> B 7`"),
    (
        "question 256 -> B 7",
        "account has to be a number from 0 to 255 and is `256`",
    ),
    ("slip (0, 1, 4, 1 -> A", "a `(` is not closed in this line"),
    (
        "repeat 2 question 0 -> B 0",
        "unknown word `repeat`: the words are acks, sum, open, example, waiting, request",
    ),
    ("-> K 1", "nothing stands before `->`"),
];

#[test]
fn wrong_lines() {
    for (line, part) in WRONG {
        let what = parse(&format!("{SMALL}\n{line}\n{SMALL}")).expect_err(line);
        let start = format!("{}: ", place(17));
        assert!(what.starts_with(&start) && what.contains(part), "{line:?}: {what}");
    }
}

#[test]
fn books_that_are_not_there_or_idle() {
    let what = parse("question 0 -> B 0\n").expect_err("no book");
    assert_eq!(
        what,
        format!(
            "{}: no book is opened before this: put a line with `open` or `example` before it",
            place(1)
        )
    );
    let what = parse(&format!("{SMALL}open n 6, f 1, k 2\n")).expect_err("an idle book");
    assert_eq!(
        what,
        format!("{}: nothing is asked of this book: put a message below it", place(16))
    );
    let what = parse(&format!("{SMALL}example refused_opening_5_1\n")).expect_err("an idle book");
    assert!(what.starts_with(&format!("{}: nothing is asked", place(16))), "{what}");
}

/// Without the lines of one sort, that is noticed; an empty file lacks the first.
#[test]
fn a_sort_that_is_not_there() {
    let without = |leave: &dyn Fn(&str) -> bool| -> String {
        SMALL
            .lines()
            .filter(|line| !leave(line))
            .map(|line| format!("{line}\n"))
            .collect()
    };
    let cases = [
        (String::new(), "acks n 6, f 1 -> 5"),
        (without(&|line| line.starts_with("acks")), "acks n 6, f 1 -> 5"),
        (without(&|line| line.starts_with("sum")), "sum 1 2 -> 33"),
        (
            without(&|line| line.starts_with("open n 5")),
            "open n 5, f 1, k 1 -> F 1 0",
        ),
        (without(&|line| line.starts_with("example")), "example tie"),
        (
            without(&|line| line.starts_with("waiting")),
            "waiting -> 2 3 4, or waiting -> none",
        ),
    ];
    for (text, form) in cases {
        let due = format!("{FOLDER}/{FILE}: there is no line like `{form}`: put one in, as each sort has to be tried");
        assert_eq!(parse(&text), Err(due), "{text}");
    }
    let facts: String = SMALL.lines().take(4).map(|line| format!("{line}\n")).collect();
    let due = "there is no line like `open n 6, f 1, k 2, balances 10 3`";
    let what = parse(&format!("{facts}example tie\nwaiting -> none\n")).expect_err("no book of its own");
    assert!(what.contains(due), "{what}");
}

#[test]
fn a_file_that_is_not_there() {
    let what = Known::read(Path::new("no/such")).expect_err("no file");
    assert!(what.starts_with("no/such/known_answers.txt: No such file"), "{what}");
    assert!(what.ends_with("; a text has to stand there"), "{what}");
}

/// An example whose text has no reply to each message, or whose source is wrong, is refused by its own file and line.
#[test]
fn wrong_examples() {
    let folder = Path::new(env!("CARGO_TARGET_TMPDIR"));
    let [page, text] = ["page", "txt"].map(|ending| folder.join("wrong").with_extension(ending));
    let source = "open n 2, f 0, k 1\nquestion 0\nquestion 0\n";
    for (source, given, part) in [
        (source, "1 B 0\n", "wrong.txt:2: there has to be the reply to entry 2"),
        (
            source,
            "1 B 0\n3 B 0\n",
            "wrong.txt:2: there has to be the reply to entry 2",
        ),
        (source, "F 1 0\n", "wrong.txt:1: there has to be the reply to entry 1"),
        (source, "1 B 0\n2 Q\n", "wrong.txt:2: a reply is written like this"),
        ("open n 2, f 0, k 1\nslop\n", "", "wrong.page:2: unknown word `slop`"),
    ] {
        std::fs::write(&page, source).expect("a place for a test's files");
        std::fs::write(&text, given).expect("a place for a test's files");
        let what = Known::parse("# a comment\nexample wrong\n", folder).expect_err(part);
        let start = format!("{}:2: ", folder.join(FILE).display());
        assert!(what.starts_with(&start) && what.contains(part), "{what}");
    }
}

/// The file itself has all that the documents know.
#[test]
fn the_file() {
    let known = Known::read(Path::new(FOLDER)).unwrap_or_else(|what| panic!("{what}"));
    let examples: Vec<_> = known.plays.iter().filter_map(|play| play.example.as_ref()).collect();
    assert_eq!(
        (known.acks_needed.len(), known.sums.len(), known.openings.len()),
        (7, 3, 8)
    );
    assert_eq!((known.plays.len(), examples.len()), (18, 9));
}
