//! The compiled `daybook`, called through the static library or run as a program; the writer of bundles, and the join
//! of two.

use std::io::Write;
use std::process::{Command, Stdio};

extern "C" {
    // A byte slice is passed as its pointer, then its length; a reference to an array as its pointer alone.
    fn daybook_text(bytes: *const u8, length: usize, text: *mut [u8; TEXT_SIZE]) -> usize;
    fn daybook_waiting(bytes: *const u8, length: usize, list: *mut u8, list_length: usize) -> u32;
    fn bundle_check(bytes: *const u8, length: usize) -> u32;
    fn bundle_sum(bytes: *const u8, length: usize) -> u32;
    fn bundle_write(page: *const [u8; PAGE], records: *const u8, length: usize, out: *mut u8, out_length: usize)
        -> u32;
    fn bundle_evidence(
        first: *const u8,
        first_length: usize,
        second: *const u8,
        second_length: usize,
        ruled: *const [u8; SLIP_SIZE],
        reply: *mut [u32; EVIDENCE],
    );
    fn ledger_acks_needed(seats: u8, faults: u8) -> u16;
    fn ledger_is_enough(seats: u8, faults: u8, acks: u8) -> bool;
}

/// The longest text that `daybook` writes.
pub const TEXT_SIZE: usize = 36_828;

/// The length of an opening page, as a bundle's body of kind 0 has it.
pub const PAGE: usize = 131;

/// The length of a slip, as a bundle's bodies of kinds 1 to 4 have it.
pub const SLIP_SIZE: usize = 10;

/// How many words the reply of a join has.
pub const EVIDENCE: usize = 11;

/// The code and the entry of a bundle's refusal.
pub type Refusal = (u32, u32);
/// What the writer replies: the bundle's length, or its refusal.
pub type Written = Result<u32, Refusal>;

/// What a lent buffer holds before a call, to see that what stands behind the answer is left as it was.
pub const UNTOUCHED: u8 = 170;
static NO_TEXT: [u8; TEXT_SIZE] = [UNTOUCHED; TEXT_SIZE];

// The exported functions ask nothing of their arguments, so each wrapper is safe for every value.

/// The text of these bytes, through the static library. Panics if a byte behind the text is changed.
pub fn text_of(bytes: &[u8]) -> Vec<u8> {
    let mut buffer = Box::new(NO_TEXT);
    let length = unsafe { daybook_text(bytes.as_ptr(), bytes.len(), &mut *buffer) };
    assert!(
        buffer[length..] == NO_TEXT[length..],
        "a byte behind the text was changed"
    );
    buffer[..length].to_vec()
}

/// The static library with one buffer for all texts, where time counts.
pub struct Replay {
    buffer: Box<[u8; TEXT_SIZE]>,
}

impl Default for Replay {
    fn default() -> Replay {
        Replay {
            buffer: Box::new([0; TEXT_SIZE]),
        }
    }
}

impl Replay {
    /// The text of these bytes, which stands until the next call.
    pub fn text(&mut self, bytes: &[u8]) -> &[u8] {
        let length = unsafe { daybook_text(bytes.as_ptr(), bytes.len(), &mut *self.buffer) };
        &self.buffer[..length]
    }
}

/// The waiting list after the bundle's last message, into the front of `list`: how many accounts are written, or 256
/// times the code.
pub fn waiting(bytes: &[u8], list: &mut [u8]) -> u32 {
    unsafe { daybook_waiting(bytes.as_ptr(), bytes.len(), list.as_mut_ptr(), list.len()) }
}

/// The sum of these bytes, as a contents entry has it of a body.
pub fn sum(bytes: &[u8]) -> u32 {
    unsafe { bundle_sum(bytes.as_ptr(), bytes.len()) }
}

/// Writes the bundle with this opening page and these records into the front of `out`.
pub fn write(page: &[u8; PAGE], records: &[u8], out: &mut [u8]) -> Written {
    number_or_refusal(unsafe { bundle_write(page, records.as_ptr(), records.len(), out.as_mut_ptr(), out.len()) })
}

/// How many entries a sound bundle has, or its refusal.
pub fn check(bytes: &[u8]) -> Result<u32, Refusal> {
    number_or_refusal(unsafe { bundle_check(bytes.as_ptr(), bytes.len()) })
}

/// Joins two bundles, beside a ruled slip: all words of the reply are to be replaced.
pub fn evidence(first: &[u8], second: &[u8], ruled: &[u8; SLIP_SIZE], reply: &mut [u32; EVIDENCE]) {
    unsafe { bundle_evidence(first.as_ptr(), first.len(), second.as_ptr(), second.len(), ruled, reply) }
}

/// A reply below 65,536 is a number; a refusal is 65,536 times the code, and the entry.
fn number_or_refusal(reply: u32) -> Result<u32, Refusal> {
    match (reply / 65_536, reply % 65_536) {
        (0, number) => Ok(number),
        refusal => Err(refusal),
    }
}

/// How many equal acks accept a slip.
pub fn acks_needed(n: u8, f: u8) -> u16 {
    unsafe { ledger_acks_needed(n, f) }
}

/// Whether so many equal acks accept a slip.
pub fn is_enough(n: u8, f: u8, acks: u8) -> bool {
    unsafe { ledger_is_enough(n, f, acks) }
}

/// What the program prints for these bytes on its standard input.
pub fn run_program(program: &str, bytes: &[u8]) -> Vec<u8> {
    let mut child = Command::new(program)
        .stdin(Stdio::piped())
        .stdout(Stdio::piped())
        .spawn()
        .unwrap_or_else(|error| panic!("{} cannot be run: {}", program, error));
    // The program may stop reading behind the longest bundle: then the pipe is closed early, which is no fault.
    let _ = child.stdin.take().expect("its input").write_all(bytes);
    let output = child.wait_with_output().expect("its output");
    assert!(output.status.success(), "{} ended with {}", program, output.status);
    output.stdout
}
