//! The join of two bundles, which seat acknowledged two slips: held to the second program and to known replies.

pub mod joined;
pub mod known;
pub mod pairs;
pub mod random;
pub mod rows;
