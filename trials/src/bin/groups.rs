//! Runs of whole groups with bad seats and with seats that switch on different days, checked against demand 3 and
//! requests 2, 3, 5 and 7 of document 02.
//!
//!     groups [--program PATH] [--seed N] [--runs N] [--only INDEX]
//!
//! `--program` gives some final bundles to the program `daybook` too; `--only` makes one run of the seed and prints it.

use std::process::ExitCode;
use trials::groups::breach::{self, Breach, Notice};
use trials::groups::coverage::Coverage;
use trials::groups::demand3;
use trials::groups::evidence::{self, Joins};
use trials::groups::plan::Plan;
use trials::groups::premises;
use trials::groups::record::Event;
use trials::groups::seat::Seat;
use trials::groups::world::{self, World};
use trials::shared::checks::Checks;
use trials::shared::daybook;
use trials::shared::dice::{self, Dice};

/// In so many runs, the first ones, a final bundle goes through the program too.
const THROUGH_PROGRAM: u64 = 48;

/// What is broken on purpose has to show in so many runs.
const SEARCHED: u64 = 500;

struct Options {
    program: Option<String>,
    seed: u64,
    runs: u64,
    only: Option<u64>,
}

/// Counts a check; says what is wrong if it failed.
fn count(checks: &mut Checks, name: &str, faults: &[String]) {
    match faults.first() {
        None => checks.pass(),
        Some(first) => {
            checks.fail(&format!("{name}: {} faults, the first: {first}", faults.len()));
        }
    }
}

fn main() -> ExitCode {
    let options = match options() {
        Ok(options) => options,
        Err(wrong) => {
            eprintln!("groups: {wrong}\ngroups [--program PATH] [--seed N] [--runs N] [--only INDEX]");
            return ExitCode::from(2);
        }
    };
    let (seed, runs) = (options.seed, options.runs);
    println!("groups: seed {seed}, again with --seed {seed} --runs {runs}, one run with --seed {seed} --only INDEX");
    let mut checks = Checks::default();
    match options.only {
        Some(index) => print_run(&one_run(index, &options, &mut checks).0),
        None => all_runs(&options, &mut checks),
    }
    checks.finish()
}

fn options() -> Result<Options, String> {
    let mut options = Options {
        program: None,
        seed: dice::own_seed(),
        runs: 1_280,
        only: None,
    };
    let mut words = std::env::args().skip(1);
    while let Some(name) = words.next() {
        let word = words.next().ok_or(format!("{name} wants a word behind it"))?;
        let number = || word.parse::<u64>().map_err(|_| format!("{word} is no number"));
        match name.as_str() {
            "--program" => options.program = Some(word),
            "--seed" => options.seed = number()?,
            "--runs" => options.runs = number()?,
            "--only" => options.only = Some(number()?),
            _ => return Err(format!("{name} is unknown")),
        }
    }
    Ok(options)
}

fn all_runs(options: &Options, checks: &mut Checks) {
    checks.part("runs");
    let mut coverage = Coverage::new();
    for index in 0..options.runs {
        let (world, joins) = one_run(index, options, checks);
        coverage.count(&world, &joins);
    }
    if options.program.is_some() {
        println!(
            "{} final bundles went through the program too",
            options.runs.min(THROUGH_PROGRAM)
        );
    }
    checks.part("broken on purpose");
    println!("Broken on purpose, and the first run of the search that shows it:");
    for (index, (breach, notice)) in (0..).zip(Breach::searches()) {
        // Far from the indices of runs.
        one_search(breach, notice, &mut Dice::of(options.seed, u64::MAX - index), checks);
    }
    checks.part("coverage");
    println!("Coverage:");
    for (name, times) in coverage.rows() {
        println!("{times:>10}  {name}");
        let faults = if *times == 0 {
            vec!["never met".to_string()]
        } else {
            Vec::new()
        };
        count(checks, name, &faults);
    }
}

/// Makes and checks run `index` of the seed, and joins each two honest seats' bundles.
fn one_run(index: u64, options: &Options, checks: &mut Checks) -> (World, Joins) {
    let mut dice = Dice::of(options.seed, index);
    let plan = Plan::of_run(index, &mut dice);
    let world = world::run(plan, &mut dice);
    let mut faults: Vec<String> = Vec::new();
    for (premise, what) in premises::broken(&world.record) {
        faults.push(format!("the run breaks a premise, {premise:?}: {what}"));
    }
    for failure in demand3::failures(&world.record) {
        faults.push(format!("{:?}: {}", failure.check, failure.what));
    }
    if let (Some(program), true) = (&options.program, index < THROUGH_PROGRAM) {
        let seats: Vec<&Seat> = world.seats.values().collect();
        let bundle = dice.pick(&seats).bundle();
        if daybook::run_program(program, &bundle) != daybook::text_of(&bundle) {
            faults.push("the program's text of a final bundle is not the library's".to_string());
        }
    }
    let joins = evidence::joins(&world.record, &mut dice);
    faults.extend(joins.faults.iter().map(|what| format!("joined, {what}")));
    count(checks, &format!("run {index} of seed {}", options.seed), &faults);
    (world, joins)
}

fn one_search(breach: Breach, notice: Notice, dice: &mut Dice, checks: &mut Checks) {
    let faults = match breach::search(breach, notice, SEARCHED, dice) {
        Ok(found) => {
            println!("  {}: run {} fails, {}", found.breach.name(), found.runs, found.how);
            Vec::new()
        }
        Err(fault) => vec![fault],
    };
    count(checks, &format!("{}, {notice:?}", breach.name()), &faults);
}

/// Prints a run, for people.
fn print_run(world: &World) {
    let page = &world.plan.pages[0];
    let balances = &page.balances[..page.k.into()];
    println!(
        "n {}, f {}, k {}, balances {balances:?}, bad {:?}, courses {:?}, the council waits {:?}",
        page.n, page.f, page.k, world.plan.bad, world.plan.courses, world.plan.wait
    );
    for event in &world.record.events {
        match event {
            Event::Call(call) => println!(
                "seat {:2}, {:?}: {} -> {:?}",
                call.seat, call.rules, call.message, call.reply
            ),
            Event::Look { seat, closings } => println!("seat {seat:2}: {closings:?}"),
        }
    }
}
