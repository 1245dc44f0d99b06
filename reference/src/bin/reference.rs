//! Prints what `daybook` must print for a bundle.
//!
//! Usage: `reference [FILE]`; standard input is read if no file is named, or `-`.

#![forbid(unsafe_code)]

use reference::{bundle, daybook, streams};
use std::process::ExitCode;

fn main() -> ExitCode {
    let arguments: Vec<_> = std::env::args_os().skip(1).collect();
    if arguments.len() > 1 {
        return streams::complain(
            2,
            "usage: reference [FILE]; standard input is read if no file is named, or `-`",
        );
    }
    let file = arguments.first().map(|name| name.as_os_str());
    // a byte more than the longest bundle has is refused just as all the bytes behind it would be
    let bytes = match streams::input(file, bundle::LONGEST + 1) {
        Ok(bytes) => bytes,
        Err(error) => return streams::complain(1, &format!("{}: {error}", streams::name(file))),
    };
    streams::output(daybook::printed(&bytes).as_bytes())
}
