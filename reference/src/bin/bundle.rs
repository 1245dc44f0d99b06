//! The person's tool: packs the text form of a bundle into bytes, unpacks bytes into the text form, and shows any bytes
//! entry by entry.

#![forbid(unsafe_code)]

use reference::{bundle, shown, streams, written};
use std::ffi::OsStr;
use std::process::ExitCode;

const USAGE: &str = "usage: ./bundle.sh pack [FILE]     the text form to a bundle's bytes
       ./bundle.sh unpack [FILE]   a bundle's bytes to the text form
       ./bundle.sh show [FILE]     any bytes, entry by entry, with the replies or the place of the fault
       ./bundle.sh evidence FIRST SECOND [ACCOUNT NUMBER VALUE RECIPIENT]
                                   which seat acked two slips, one in each bundle, and one that was not ruled
       ./bundle.sh --help          this text; so does -h
       ./bundle.sh --version       the version
Standard input is read if no file is named, or `-`. Of FIRST and SECOND one may be `-`. docs/FORMATS.md says what the
bytes and the text are.
The four numbers are the slip that was ruled; without them it is 0 0 0 0, whose number no book takes. Evidence is asked
of the proved library, which needs `rt`; its first run takes some minutes. No such seat is an answer too, with status 0.
Status 0: done; 1: a file cannot be read or is wrong, the output cannot be written, or something was not built; 2: the
arguments are wrong, or something that is needed is not there.";

const VERSION: &str = concat!("saplull ", env!("CARGO_PKG_VERSION"));

/// No text or bundle is anywhere near this long; it keeps endless input out.
const MOST_BYTES: usize = 1 << 24;

fn main() -> ExitCode {
    let arguments: Vec<_> = std::env::args_os().skip(1).collect();
    let arguments: Vec<&OsStr> = arguments.iter().map(|argument| argument.as_os_str()).collect();
    let (word, file) = match arguments[..] {
        [word, ..] if word == "evidence" => return misused("`evidence` asks the proved library: ./bundle.sh does it"),
        [word] => (word, None),
        [word, file] => (word, Some(file)),
        [] => return streams::complain(2, USAGE),
        _ => return misused(&format!("one file at a time, and these are {}", arguments.len() - 1)),
    };
    let run = match (word.to_str(), file) {
        (Some("pack"), _) => pack,
        (Some("unpack"), _) => unpack,
        (Some("show"), _) => show,
        (Some("--help" | "-h"), None) => return streams::output(format!("{USAGE}\n").as_bytes()),
        (Some("--version"), None) => return streams::output(format!("{VERSION}\n").as_bytes()),
        _ => return misused(&format!("`{}` is not one of its words", word.to_string_lossy())),
    };
    let name = streams::name(file);
    let result = input(file).and_then(|bytes| run(&bytes, &name));
    match result {
        Ok(output) => streams::output(&output),
        Err(what) => streams::complain(1, &format!("{name}:{what}")),
    }
}

fn misused(what: &str) -> ExitCode {
    streams::complain(2, &format!("bundle: {what}\n{USAGE}"))
}

/// The input; this and the three functions below, which know the file's name, say in Err what stands behind it and a
/// colon.
fn input(file: Option<&OsStr>) -> Result<Vec<u8>, String> {
    let bytes = streams::input(file, MOST_BYTES + 1)
        .map_err(|error| format!(" {error}; name a file that can be read, or - for standard input"))?;
    if bytes.len() > MOST_BYTES {
        return Err(format!(" longer than {MOST_BYTES} bytes"));
    }
    Ok(bytes)
}

fn pack(bytes: &[u8], name: &str) -> Result<Vec<u8>, String> {
    let text = std::str::from_utf8(bytes).map_err(|error| {
        let line = 1 + bytes[..error.valid_up_to()]
            .iter()
            .filter(|byte| **byte == b'\n')
            .count();
        format!("{line}: a byte that is not UTF-8; save the text as UTF-8, or, if it is a bundle, show or unpack it")
    })?;
    let packed = written::packed(text).map_err(|mistake| format!("{}: {}", mistake.line, mistake.what))?;
    if let Some(written::Mistake { line, what }) = packed.warning {
        streams::warn(&format!("{name}:{line}: warning: {what}; it is packed as it is"));
    }
    Ok(packed.bytes)
}

fn unpack(bytes: &[u8], _: &str) -> Result<Vec<u8>, String> {
    let text = written::written(bytes).map_err(|bundle::Fault { code, entry }| {
        let advice = if is_text_form(bytes) {
            IS_TEXT_FORM
        } else {
            shown::ADVICE
        };
        format!(" refused with {code} at entry {entry}; {advice}")
    })?;
    Ok(text.into_bytes())
}

fn show(bytes: &[u8], name: &str) -> Result<Vec<u8>, String> {
    if is_text_form(bytes) {
        streams::warn(&format!("{name}: warning: {IS_TEXT_FORM}"));
    }
    Ok(written::shown(bytes).into_bytes())
}

const IS_TEXT_FORM: &str = "this looks like the text form of a bundle; pack it first: ./bundle.sh pack";

/// Whether these are no bundle's bytes, and one of their lines opens a text form.
fn is_text_form(bytes: &[u8]) -> bool {
    let opens = |line: &[u8]| line.starts_with(b"open ");
    bundle::check(bytes).is_err() && bytes.split(|byte| *byte == b'\n').any(opens)
}
