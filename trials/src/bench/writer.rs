//! The writer of bundles against the second program's, in time.

use super::loads::{each_kind, page};
use super::measures::{best, row, SIZES};
use crate::shared::daybook;
use crate::writer::records::{page_bytes, records};
use reference::book::Message;
use reference::bundle::{write, LONGEST};

/// Prints the rows of the writer. The messages are there before, in each of the two forms.
pub fn measure() -> Result<(), String> {
    println!("writing, a message of each kind in turn:");
    println!(" messages  per message      writer  second program   ratio");
    let page = page([100; 32]);
    let page_bytes = page_bytes(&page);
    let mut buffer = vec![0; LONGEST];
    for count in SIZES {
        let messages: Vec<Message> = (0..count).map(each_kind).collect();
        let records = records(&messages);
        let ours = |_: &mut ()| daybook::write(&page_bytes, &records, &mut buffer).unwrap_or(0) as usize;
        let (our_time, our_bytes) = best(|| (), ours);
        let (their_time, their_bytes) = best(|| (), |()| write(&page, &messages).len());
        if our_bytes != their_bytes || !buffer.starts_with(&write(&page, &messages)) {
            return Err("the two written bundles differ".to_string());
        }
        row(
            count,
            "nanoseconds",
            our_time.as_nanos() as f64,
            their_time.as_nanos() as f64,
        );
    }
    Ok(())
}
