//! Reading and writing for the tools. Nothing here panics, also if a pipe is closed. A standard stream that is closed
//! from the start is replaced by /dev/null before a Rust program begins; bundle.sh tells it.

use std::ffi::OsStr;
use std::fs::File;
use std::io::{self, Read, Write};
use std::process::ExitCode;

/// The file that is named; none where standard input is to be read, which `-` says too.
fn named(file: Option<&OsStr>) -> Option<&OsStr> {
    file.filter(|name| *name != "-")
}

/// The bytes of the file, or of standard input if none is named; no more than `most` of them are read.
pub fn input(file: Option<&OsStr>, most: usize) -> io::Result<Vec<u8>> {
    let mut bytes = Vec::new();
    match named(file) {
        Some(name) => File::open(name)?.take(most as u64).read_to_end(&mut bytes)?,
        None => io::stdin().lock().take(most as u64).read_to_end(&mut bytes)?,
    };
    Ok(bytes)
}

/// What messages call the file.
pub fn name(file: Option<&OsStr>) -> String {
    named(file).map_or("<stdin>".to_string(), |name| name.to_string_lossy().into_owned())
}

/// Writes all of it to standard output. A reader that went away wants no message.
pub fn output(bytes: &[u8]) -> ExitCode {
    match written(bytes) {
        Ok(()) => ExitCode::SUCCESS,
        Err(error) if error.kind() == io::ErrorKind::BrokenPipe => ExitCode::FAILURE,
        Err(error) => complain(1, &format!("standard output: {error}")),
    }
}

fn written(bytes: &[u8]) -> io::Result<()> {
    let mut out = io::stdout().lock();
    out.write_all(bytes)?;
    out.flush()
}

/// Writes a line to standard error, which may be closed.
pub fn warn(line: &str) {
    // there is nobody left to tell if this fails
    let _ = writeln!(io::stderr(), "{line}");
}

/// Writes a line to standard error, which may be closed, and returns the status to end with.
pub fn complain(status: u8, line: &str) -> ExitCode {
    warn(line);
    ExitCode::from(status)
}
