//! What a join met, in rows that have to occur: its reply, and what stands in the two bundles beside the pair.

use crate::evidence::joined::Given;
use reference::book::{Message, OpeningPage, Slip};
use reference::bundle::{self, ACK, LONGEST};
use reference::evidence::{Evidence, Which};

/// The codes that both bundles can be refused by.
const CODES: [u8; 4] = [13, 14, 15, 16];

/// The other rows.
const ROWS: [&[&str]; 6] = [
    &["21", "found", "none"],
    &[FIRST_SHOWN, SECOND_SHOWN, FIRST_RULED, SECOND_RULED, NEITHER_RULED],
    &[
        LATER_IN_SECOND,
        SEVERAL_IN_SECOND,
        TURNED,
        VALUE_ALONE,
        RECIPIENT_ALONE,
        REFUSED_BY_5,
    ],
    &[FIRST_BEFORE_21, SECOND_BEFORE_21],
    &[
        SAME_FOUND,
        SAME_NONE,
        LONGEST_FOUND,
        LONGEST_NONE,
        NO_BYTES_FIRST,
        NO_BYTES_SECOND,
        PAGES_ALONE,
    ],
    &[N_0, N_16_FOUND, N_99_FOUND, N_255_FOUND],
];
const FIRST_SHOWN: &str = "the first's body shown";
const SECOND_SHOWN: &str = "the second's body shown";
const FIRST_RULED: &str = "ruled: the first's slip";
const SECOND_RULED: &str = "ruled: the second's slip";
const NEITHER_RULED: &str = "ruled: neither's";
/// The pair (3, 9) before (4, 1).
const LATER_IN_SECOND: &str = "an earlier i with a later j";
const SEVERAL_IN_SECOND: &str = "several j at that i";
/// The two bundles the other way round, and there a pair that is not the same two acks.
pub const TURNED: &str = "turned round, another pair";
const VALUE_ALONE: &str = "the value alone differs";
const RECIPIENT_ALONE: &str = "the recipient alone differs";
const REFUSED_BY_5: &str = "found on acks that meet 5";
/// A bundle is refused, and the pages differ besides.
const FIRST_BEFORE_21: &str = "the first's code before 21";
const SECOND_BEFORE_21: &str = "the second's code before 21";
const SAME_FOUND: &str = "the same bundle twice, found";
const SAME_NONE: &str = "the same bundle twice, none";
const LONGEST_FOUND: &str = "18,123 bytes twice, found";
const LONGEST_NONE: &str = "18,123 bytes twice, none";
const NO_BYTES_FIRST: &str = "no bytes in the first";
const NO_BYTES_SECOND: &str = "no bytes in the second";
const PAGES_ALONE: &str = "a page alone in both";
const N_0: &str = "n 0";
const N_16_FOUND: &str = "found, n 1 to 16";
const N_99_FOUND: &str = "found, n 17 to 254";
const N_255_FOUND: &str = "found, n 255";

/// A message with a slip.
#[derive(Debug)]
struct Line {
    entry: usize,
    kind: u8,
    seat: u8,
    slip: Slip,
}

/// What two lines have to be so that they are a pair, each with what is passed over by it alone.
type Test = fn(u8, &Line, &Line) -> bool;
const TESTS: [(&str, Test); 6] = [
    ("another kind", |_, one, other| one.kind == ACK && other.kind == ACK),
    ("another seat", |_, one, other| one.seat == other.seat),
    ("a seat of n or above", |n, one, other| one.seat < n && other.seat < n),
    ("another account", |_, one, other| {
        one.slip.account == other.slip.account
    }),
    ("another number", |_, one, other| one.slip.number == other.slip.number),
    ("an equal slip", |_, one, other| one.slip != other.slip),
];

/// The fields in which a ruled slip differs from the first's, one at a time.
const FIELDS: [&str; 4] = ["account", "number", "value", "recipient"];

fn refused_row(which: Which, code: u8) -> String {
    format!("the {}'s {code}", which.of(["first", "second"]))
}

fn both_row(code: u8) -> String {
    format!("both refused, the first's {code}")
}

/// Two lines that lack this test alone come before the pair, or there is none.
fn passed_row(name: &str) -> String {
    format!("passed over: {name}")
}

fn field_row(name: &str) -> String {
    format!("ruled: another {name} alone")
}

/// All rows.
pub fn all() -> Vec<String> {
    let mut rows: Vec<String> = ROWS.concat().iter().map(|row| row.to_string()).collect();
    for which in [Which::First, Which::Second] {
        rows.extend(CODES.map(|code| refused_row(which, code)));
    }
    rows.extend(CODES.map(both_row));
    rows.extend(TESTS.map(|(name, _)| passed_row(name)));
    rows.extend(FIELDS.map(field_row));
    rows
}

/// The rows of a call that was answered so; Err says where the answer is not the first of all pairs.
pub fn met(given: &Given, answer: &Evidence) -> Result<Vec<String>, String> {
    let mut rows: Vec<String> = of_bundles(given, answer).into_iter().map(str::to_string).collect();
    match answer {
        Evidence::Refused { code, which: None, .. } => rows.push(code.to_string()),
        Evidence::Refused {
            code,
            which: Some(which),
            ..
        } => rows.extend(of_refusal(given, *code, *which)),
        Evidence::None | Evidence::Found { .. } => rows.extend(of_pairs(given, answer)?),
    }
    Ok(rows)
}

fn rows_of(met: &[(&'static str, bool)]) -> Vec<&'static str> {
    met.iter().filter(|(_, met)| *met).map(|(row, _)| *row).collect()
}

/// Bundles at the limits.
fn of_bundles(given: &Given, answer: &Evidence) -> Vec<&'static str> {
    let found = matches!(answer, Evidence::Found { .. });
    let none = *answer == Evidence::None;
    let same = given.first == given.second;
    let both = |length| given.bundles().iter().all(|bytes| bytes.len() == length);
    rows_of(&[
        (SAME_FOUND, same && found),
        (SAME_NONE, same && none),
        (LONGEST_FOUND, both(LONGEST) && found),
        (LONGEST_NONE, both(LONGEST) && none),
        (NO_BYTES_FIRST, given.first.is_empty()),
        (NO_BYTES_SECOND, given.second.is_empty() && !given.first.is_empty()),
        (PAGES_ALONE, both(2 + 8 + 131) && none),
    ])
}

/// A refusal by 13 to 16, and what would be refused behind it.
fn of_refusal(given: &Given, code: u8, which: Which) -> Vec<String> {
    let mut rows = vec![refused_row(which, code)];
    if which == Which::First && bundle::check(&given.second).is_err() {
        rows.push(both_row(code));
    }
    let [one, other] = given.bundles().map(page_there);
    if one.is_some() && other.is_some() && one != other {
        rows.push(which.of([FIRST_BEFORE_21, SECOND_BEFORE_21]).to_string());
    }
    rows
}

/// The bytes of the opening page of a bundle that may be refused, if they are all there.
fn page_there(bytes: &[u8]) -> Option<&[u8]> {
    let start = bundle::bodies_start(bundle::stated_entries(bytes)?);
    bytes.get(start..start + 131)
}

/// The page and all slips of a sound bundle.
fn read(bytes: &[u8]) -> (OpeningPage, Vec<Line>) {
    let (page, messages) = bundle::read(bytes).expect("a sound bundle");
    let line = |(entry, message): (usize, Message)| {
        let (kind, seat) = (bundle::entry(bytes, entry).kind, bundle::entry(bytes, entry).seat);
        let slip = match message {
            Message::Request(slip) | Message::Slip(slip) | Message::Ack { slip, .. } | Message::Ruling(slip) => slip,
            Message::Question { .. } => return None,
        };
        Some(Line {
            entry,
            kind,
            seat,
            slip,
        })
    };
    (page, (1..).zip(messages).filter_map(line).collect())
}

/// All pairs in their order, and which tests pass something over before the first of them.
struct Walk<'a> {
    pairs: Vec<[&'a Line; 2]>,
    passed: [bool; TESTS.len()],
}

impl Walk<'_> {
    fn of<'a>(n: u8, first: &'a [Line], second: &'a [Line]) -> Walk<'a> {
        let (mut pairs, mut passed) = (Vec::new(), [false; TESTS.len()]);
        for one in first {
            for other in second {
                let mut lacking = (0..TESTS.len()).filter(|place| !TESTS[*place].1(n, one, other));
                match (lacking.next(), lacking.next()) {
                    (None, _) => pairs.push([one, other]),
                    (Some(place), None) => passed[place] |= pairs.is_empty(),
                    _ => {}
                }
            }
        }
        Walk { pairs, passed }
    }
}

/// The rows of two sound bundles with one page. The pair has to be the first of all.
fn of_pairs(given: &Given, answer: &Evidence) -> Result<Vec<String>, String> {
    let ((page, first), (_, second)) = (read(&given.first), read(&given.second));
    let walk = Walk::of(page.n, &first, &second);
    let tests = TESTS.iter().zip(walk.passed).filter(|(_, passed)| *passed);
    let mut rows: Vec<String> = tests.map(|((name, _), _)| passed_row(name)).collect();
    if page.n == 0 {
        rows.push(N_0.to_string());
    }
    match (answer, walk.pairs.first()) {
        (Evidence::None, None) => rows.push("none".to_string()),
        (Evidence::Found { entries, shown, .. }, Some([one, other])) if *entries == [one.entry, other.entry] => {
            rows.push("found".to_string());
            rows.push(shown.of([FIRST_SHOWN, SECOND_SHOWN]).to_string());
            rows.extend(of_slips(&page, [one, other]).into_iter().map(str::to_string));
            rows.extend(of_order(&walk.pairs).into_iter().map(str::to_string));
            rows.extend(of_ruled(&given.ruled, &one.slip, &other.slip));
        }
        (_, least) => return Err(format!("{answer:?}, and the first of all pairs is {least:?}")),
    }
    Ok(rows)
}

/// The pair itself, and n.
fn of_slips(page: &OpeningPage, [one, other]: [&Line; 2]) -> Vec<&'static str> {
    let same_value = one.slip.value == other.slip.value;
    let same_recipient = one.slip.recipient == other.slip.recipient;
    rows_of(&[
        (VALUE_ALONE, same_recipient),
        (RECIPIENT_ALONE, same_value),
        (REFUSED_BY_5, meets_5(page, &one.slip) && meets_5(page, &other.slip)),
        (N_16_FOUND, page.n <= 16),
        (N_99_FOUND, (17..255).contains(&page.n)),
        (N_255_FOUND, page.n == 255),
    ])
}

/// Whether an ack of this slip is refused with 5.
fn meets_5(page: &OpeningPage, slip: &Slip) -> bool {
    slip.account >= page.k
        || slip.recipient >= page.k
        || slip.number == 0
        || slip.value == 0
        || u64::from(slip.value) > page.sum()
}

/// The first of these pairs, beside the others.
fn of_order(pairs: &[[&Line; 2]]) -> Vec<&'static str> {
    let [one, other] = pairs[0];
    let mut others = pairs[1..].iter();
    let later = others
        .clone()
        .any(|[i, j]| i.entry > one.entry && j.entry < other.entry);
    rows_of(&[
        (LATER_IN_SECOND, later),
        (SEVERAL_IN_SECOND, others.any(|[i, _]| i.entry == one.entry)),
    ])
}

/// The ruled slip, beside the two of the pair.
fn of_ruled(ruled: &Slip, one: &Slip, other: &Slip) -> Vec<String> {
    let row = match ruled {
        ruled if ruled == one => FIRST_RULED,
        ruled if ruled == other => SECOND_RULED,
        _ => NEITHER_RULED,
    };
    let mut rows = vec![row.to_string()];
    let fields = [
        Slip {
            account: ruled.account,
            ..*one
        },
        Slip {
            number: ruled.number,
            ..*one
        },
        Slip {
            value: ruled.value,
            ..*one
        },
        Slip {
            recipient: ruled.recipient,
            ..*one
        },
    ];
    // of the first's slip this field alone is the ruled one's, and that makes the two equal
    let alone = FIELDS
        .iter()
        .zip(fields)
        .filter(|(_, slip)| slip == ruled && row == NEITHER_RULED);
    rows.extend(alone.map(|(name, _)| field_row(name)));
    rows
}
