//! Says which seat acked two slips. `bundle.sh evidence` runs it, once it has read the two bundles and looked at the
//! four numbers: `evidence NAME FILE NAME FILE ACCOUNT NUMBER VALUE RECIPIENT`. A NAME is what people call the FILE.

#![forbid(unsafe_code)]

use reference::{shown, streams};
use saplull::evidence::{join, Evidence, JoinFault, Which};
use saplull::{Account, Transfer};
use std::process::ExitCode;

const USAGE: &str =
    "usage: evidence NAME FILE NAME FILE ACCOUNT NUMBER VALUE RECIPIENT; people run ./bundle.sh evidence";

fn main() -> ExitCode {
    let arguments = std::env::args_os().skip(1);
    let arguments: Vec<String> = arguments.map(|one| one.to_string_lossy().into_owned()).collect();
    match said(&arguments) {
        Ok(line) => streams::output(format!("{line}\n").as_bytes()),
        Err((status, line)) => streams::complain(status, &line),
    }
}

/// The answer; or the status to end with, and why.
fn said(arguments: &[String]) -> Result<String, (u8, String)> {
    let misused = || (2, USAGE.to_string());
    let (first, second, numbers) = match arguments {
        [first, of_first, second, of_second, numbers @ ..] => ((first, of_first), (second, of_second), numbers),
        _ => return Err(misused()),
    };
    let ruled = slip(numbers).ok_or_else(misused)?;
    let read = |(name, file): (&String, &String)| std::fs::read(file).map_err(|error| (1, format!("{name}: {error}")));
    let names = [first.0.as_str(), second.0.as_str()];
    let (first, second) = (read(first)?, read(second)?);
    let found = join(&first, &second, &ruled).map_err(|fault| (1, refusal(names, fault)))?;
    Ok(answer(names, found))
}

fn slip(numbers: &[String]) -> Option<Transfer> {
    match numbers {
        [account, number, value, recipient] => Some(Transfer {
            account: Account(account.parse().ok()?),
            number: number.parse().ok()?,
            value: value.parse().ok()?,
            recipient: Account(recipient.parse().ok()?),
        }),
        _ => None,
    }
}

/// Of the two, by their places.
fn of(names: [&str; 2], which: Which) -> &str {
    match which {
        Which::First => names[0],
        Which::Second => names[1],
    }
}

fn answer(names: [&str; 2], found: Option<Evidence>) -> String {
    let [first, second] = names;
    match found {
        None => format!("no seat acked one slip in {first} and another with its account and number in {second}"),
        Some(Evidence {
            seat,
            first_entry,
            second_entry,
            shown,
            transfer,
            ..
        }) => format!(
            "seat {} acked two slips: entry {first_entry} of {first} and entry {second_entry} of {second}; shown is \
            the slip of {}: account {}, number {}, value {}, recipient {}",
            seat.0,
            of(names, shown),
            transfer.account.0,
            transfer.number,
            transfer.value,
            transfer.recipient.0
        ),
    }
}

fn refusal(names: [&str; 2], fault: JoinFault) -> String {
    let code = fault.code().code();
    match fault {
        JoinFault::Bundle(which, why) => {
            let why = why.to_string();
            // a sentence may go on with what the code means where there is no bundle
            let why = why.split("; handed over by itself").next().unwrap_or(&why);
            format!("{}: refused with {code}: {why}; {}", of(names, which), shown::ADVICE)
        }
        JoinFault::PagesDiffer => {
            let [first, second] = names;
            format!("{first} and {second}: refused with {code}: {fault}; take two bundles of one group")
        }
    }
}
