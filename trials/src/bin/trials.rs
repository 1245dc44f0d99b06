//! Very many bundles through the compiled `daybook`, books held for long in lent words, very many lists through the
//! writer of bundles, and very many pairs of bundles through the join, held to the second program:
//!
//!     trials --examples DIR --program PATH [--seed N] [--bundles N] [--only INDEX]
//!
//! The bundle of a seed and an index is always the same; `--only` makes and shows that one again. The last line is
//! `N passed, M failed`, and the status is 1 if one failed.

use reference::book::Book;
use reference::written::shown;
use std::process::ExitCode;
use trials::books::{any_words, handed, held, saved, taken_over, waiting, wrong_lists};
use trials::bundles::{damage, edges, known, openings, trial, wild};
use trials::evidence;
use trials::messages::ledgers;
use trials::shared::checks::Checks;
use trials::shared::daybook;
use trials::shared::dice::{self, Dice};
use trials::shared::seen::Seen;
use trials::shared::tallies::{Tallies, CLASSES, WRITTEN_AGAIN};
use trials::writer::records::written_again;
use trials::writer::writing;

const USAGE: &str = "trials --examples DIR --program PATH [--seed N] [--bundles N] [--only INDEX]";

/// One in so many random bundles also goes through the program.
const PROGRAM_EACH: u64 = 50;
/// One in so many random bundles is also asked for its waiting list.
const WAITING_EACH: u64 = 10;

struct Options {
    examples: String,
    program: String,
    seed: u64,
    bundles: u64,
    only: Option<u64>,
}

impl Options {
    fn from(arguments: &[String]) -> Result<Options, String> {
        let mut options = Options {
            examples: String::new(),
            program: String::new(),
            seed: dice::own_seed(),
            bundles: 20_000,
            only: None,
        };
        for pair in arguments.chunks(2) {
            let name = pair[0].as_str();
            let value = pair.get(1).ok_or(format!("{name} has no value"))?;
            let number = value.parse().map_err(|_| format!("{name} {value}: not a number"));
            match name {
                "--examples" => options.examples = value.clone(),
                "--program" => options.program = value.clone(),
                "--seed" => options.seed = number?,
                "--bundles" => options.bundles = number?,
                "--only" => options.only = Some(number?),
                _ => return Err(format!("{name} is not an option")),
            }
        }
        if options.examples.is_empty() || options.program.is_empty() {
            return Err("--examples and --program are needed".to_string());
        }
        Ok(options)
    }
}

/// The random bundle of this index: its class, a place in CLASSES, its bytes, and the dice as they are then, which
/// decide how its waiting list is asked and what the writer's buffer holds.
fn random(seed: u64, index: u64) -> (usize, Vec<u8>, Dice) {
    let mut dice = Dice::of(seed, index);
    let (class, bytes) = match dice.below(20) {
        0..=11 => {
            let messages = messages(&mut dice);
            (0, ledgers::living(&mut dice, messages))
        }
        12..=14 => (1, wild::wild(&mut dice)),
        15..=18 => (2, damage::damaged(&mut dice)),
        _ => (3, wild::bytes(&mut dice)),
    };
    (class, bytes, dice)
}

/// How many messages: mostly few, for time, and now and then as many as there can be.
fn messages(dice: &mut Dice) -> usize {
    let count = match dice.below(400) {
        0 => 999,
        1..=4 => dice.within(200, 998),
        _ => dice.within(5, 60),
    };
    count as usize
}

/// What is to be tried, or nothing and a failed check: the second program takes part in the making, and may panic.
fn made<T>(checks: &mut Checks, name: &str, make: impl FnOnce() -> T) -> Option<T> {
    let made = trial::caught(make);
    if let Err(what) = &made {
        checks.fail(&format!("{name} cannot be made: {what}"));
    }
    made.ok()
}

/// One random bundle, through all that its index asks for, or through everything.
fn try_random(checks: &mut Checks, tallies: &mut Tallies, options: &Options, index: u64, everything: bool) {
    let name = format!("{}-{index}", options.seed);
    let (class, bytes, mut dice) = match made(checks, &name, || random(options.seed, index)) {
        Some(made) => made,
        None => return,
    };
    let program = if everything || index % PROGRAM_EACH == 0 {
        Some(options.program.as_str())
    } else {
        None
    };
    let (text, outcome) = trial::text_tried(&bytes, program);
    let counted = trial::caught(|| tallies.text(class, &bytes, &text));
    trial::count(checks, &name, &bytes, outcome.and(counted));
    if everything || index % WAITING_EACH == 0 {
        let answer = waiting::tried(&bytes, waiting::buffer(&mut dice));
        trial::count(
            checks,
            &name,
            &bytes,
            answer.map(|answer| tallies.waiting(class, answer)),
        );
    }
    let again = written_again(&mut dice, &bytes);
    if again == Ok(true) {
        tallies.add(class, WRITTEN_AGAIN);
    }
    trial::count(checks, &name, &bytes, again.map(drop));
}

/// Each edge once, through the program as well, its waiting list, and what is read of it written out again.
fn try_edges(checks: &mut Checks, options: &Options) {
    let mut dice = Dice::new(options.seed);
    let mut sound = 0;
    for edge in made(checks, "the edges", edges::edges).unwrap_or_default() {
        let (text, outcome) = trial::text_tried(&edge.bytes, Some(&options.program));
        trial::count(checks, &edge.name, &edge.bytes, outcome);
        checks.that(
            &format!("{}: the text that the documents give", edge.name),
            text == edge.text.as_bytes(),
        );
        for length in [31, 32] {
            let answer = waiting::tried(&edge.bytes, dice.bytes(length));
            trial::count(checks, &edge.name, &edge.bytes, answer.map(drop));
        }
        let again = written_again(&mut dice, &edge.bytes);
        sound += u32::from(again == Ok(true));
        trial::count(checks, &edge.name, &edge.bytes, again.map(drop));
    }
    // 8 sound ones, the 5 fullest, and the wait of each of 32 accounts
    checks.same("edges that are sound and written out", sound, 45);
}

/// Each byte of a small bundle takes each other value.
fn try_every_byte(checks: &mut Checks) {
    let sound = edges::one_of_each();
    for place in 0..sound.len() {
        for change in 1..=255 {
            let mut bytes = sound.clone();
            bytes[place] ^= change;
            let outcome = trial::text_tried(&bytes, None).1;
            trial::count(checks, &format!("byte {place} is {}", bytes[place]), &bytes, outcome);
        }
    }
}

/// Sums of random bytes and openings from random pages, whole ones and others, through the functions that the static
/// library exports.
fn try_functions(checks: &mut Checks, seed: u64) {
    let mut dice = Dice::new(seed);
    let mut seen = Seen::default();
    for _ in 0..2_000 {
        let length = dice.place(201);
        let bytes = dice.bytes(length);
        checks.same(
            &format!("the sum of {bytes:?}"),
            daybook::sum(&bytes),
            reference::bundle::sum(&bytes),
        );
        let page = openings::wild(&mut dice);
        let body = known::page(page.n, page.f, page.k, &page.balances);
        let code = Book::open(&page).err().unwrap_or(0);
        any_words::try_opening(checks, &mut dice, &format!("{page:?}"), &body, code);
        let wrong = handed::spoilt_page(&mut dice, &body);
        let what = format!("{page:?} in {} bytes", wrong.len());
        any_words::try_opening(checks, &mut dice, &what, &wrong, 15);
        seen.add(&handed::page_row(wrong.len(), code));
    }
    seen.table(checks, handed::page_rows());
}

/// Makes one random bundle again and shows it.
fn show(checks: &mut Checks, options: &Options, index: u64) {
    let (class, bytes, _) = random(options.seed, index);
    println!("bundle {index}, class {}:", CLASSES[class]);
    print!("{}", shown(&bytes));
    try_random(checks, &mut Tallies::of_bundles(), options, index, true);
}

fn run(checks: &mut Checks, options: &Options) {
    checks.part("known pages");
    known::answers(checks, &mut Dice::new(options.seed), &options.examples);
    known::examples(checks, &options.examples, Some(&options.program));
    checks.part("edges");
    try_edges(checks, options);
    checks.part("waiting lists, wrong on purpose");
    wrong_lists::all_noticed(checks, &mut Dice::new(options.seed));
    checks.part("exported functions");
    try_functions(checks, options.seed);
    checks.part("words of any content");
    any_words::try_messages(checks, options.seed);
    checks.part("books taken over from before request 5");
    any_words::try_switches(checks, options.seed);
    taken_over::random(checks, options.seed);
    checks.part("saved books, damaged");
    saved::try_damage(checks, options.seed);
    checks.part("books held for long");
    held::lives(checks, options.seed);
    checks.part("bundles written");
    writing::random(checks, options.seed, &options.program);
    checks.part("bundles joined");
    evidence::random::random(checks, options.seed);
    checks.part("every byte changed");
    try_every_byte(checks);
    checks.part("random bundles");
    let mut tallies = Tallies::of_bundles();
    for index in 0..options.bundles {
        try_random(checks, &mut tallies, options, index, false);
    }
    checks.part("replies seen in the random bundles");
    tallies.table(checks);
}

fn main() -> ExitCode {
    let arguments: Vec<String> = std::env::args().skip(1).collect();
    let options = match Options::from(&arguments) {
        Ok(options) => options,
        Err(what) => {
            eprintln!("trials: {what}\nusage: {USAGE}");
            return ExitCode::from(2);
        }
    };
    println!(
        "trials: seed {0} (the same again: trials --examples {1} --program {2} --seed {0} --bundles {3})",
        options.seed, options.examples, options.program, options.bundles
    );
    let mut checks = Checks::default();
    match options.only {
        Some(index) => show(&mut checks, &options, index),
        None => run(&mut checks, &options),
    }
    checks.finish()
}
