//! Bundles: an opening page and messages as bytes, to be sent to others.

use crate::book::listed;
use crate::foreign::{
    bundle_check, bundle_sum, bundle_write, check_sizes, daybook_text, daybook_waiting, other_version,
};
use crate::foreign::{LIST_SIZE, LONGEST_BUNDLE, TEXT_SIZE};
use crate::{Account, Message, Page, Refusal};
use std::error::Error;
use std::fmt;

/// Why a bundle is refused, and at which entry.
#[derive(Clone, Copy, Debug, PartialEq, Eq)]
pub struct BundleFault {
    /// why, 13 to 16
    pub code: Refusal,
    /// the lowest entry that is wrong; 0 where the code is 13 or 15, which are of the whole bundle
    pub entry: u16,
}

impl fmt::Display for BundleFault {
    fn fmt(&self, f: &mut fmt::Formatter<'_>) -> fmt::Result {
        match self.code {
            Refusal::BadHeader | Refusal::BadEnd => write!(f, "{}", self.code),
            code => write!(f, "entry {}: {code}", self.entry),
        }
    }
}

impl Error for BundleFault {}

/// How many entries the bundle has, where it is sound.
pub fn check(bytes: &[u8]) -> Result<u16, BundleFault> {
    // Safe: the length is that of the bytes.
    told(unsafe { bundle_check(bytes.as_ptr(), bytes.len()) })
}

/// The bundle of this page and these messages. Refused with 18 where there are more than 999 of them, and by nothing
/// else: whether the page opens a book is not looked at.
pub fn write(page: &Page, messages: &[Message]) -> Result<Vec<u8>, Refusal> {
    check_sizes();
    let page = page.to_bytes();
    let records: Vec<u8> = messages.iter().flat_map(Message::record).collect();
    let mut out = vec![0; LONGEST_BUNDLE];
    // Safe: the page has as many bytes as stated, and the lengths are those of the records and of the buffer.
    let returned = unsafe { bundle_write(&page, records.as_ptr(), records.len(), out.as_mut_ptr(), out.len()) };
    let length = told(returned).map_err(|fault| fault.code)?;
    out.truncate(usize::from(length));
    Ok(out)
}

/// What is returned as one number: what was counted, or 65,536 times the code, and the entry.
fn told(returned: u32) -> Result<u16, BundleFault> {
    let low = (returned % 65_536) as u16;
    match returned / 65_536 {
        0 => Ok(low),
        code => Err(BundleFault {
            code: Refusal::answered(code),
            entry: low,
        }),
    }
}

/// The sum of a body, as a contents entry has it.
pub fn sum(body: &[u8]) -> u32 {
    // Safe: the length is that of the body.
    unsafe { bundle_sum(body.as_ptr(), body.len()) }
}

/// The text that the program `daybook` writes for these bytes, whatever they are.
pub fn text(bytes: &[u8]) -> String {
    check_sizes();
    let mut text = Box::new([0; TEXT_SIZE]);
    // Safe: the length is that of the bytes, and the buffer has as many bytes as stated.
    let length = unsafe { daybook_text(bytes.as_ptr(), bytes.len(), &mut *text) };
    let front = text.get(..length);
    let front = front.unwrap_or_else(|| other_version("the length of a text", length));
    String::from_utf8(front.to_vec()).expect("daybook writes letters, digits and signs of ASCII")
}

/// The accounts that wait behind the bundle's last message, lowest first.
pub fn waiting_behind(bytes: &[u8]) -> Result<Vec<Account>, Refusal> {
    let mut list = [0; LIST_SIZE];
    // Safe: the lengths are those of the bytes and of the list.
    let returned = unsafe { daybook_waiting(bytes.as_ptr(), bytes.len(), list.as_mut_ptr(), list.len()) };
    listed(list, returned)
}
