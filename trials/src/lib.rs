//! What is tried, in folders: bundles, messages, books, the writer of bundles, the join of two bundles, groups of seats
//! and crashes; what the trials share; and what the benchmark measures.

pub mod bench;
pub mod books;
pub mod bundles;
pub mod crashes;
pub mod evidence;
pub mod groups;
pub mod messages;
pub mod shared;
pub mod writer;
