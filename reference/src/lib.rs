//! The second program: what `daybook` must print, the writer of bundles must write and the join of two bundles must
//! reply, from documents 01 and 02 alone, in place and without proofs.

#![forbid(unsafe_code)]

pub mod book;
pub mod bundle;
pub mod daybook;
pub mod evidence;
pub mod known;
pub mod rules;
pub mod shown;
pub mod streams;
pub mod written;
