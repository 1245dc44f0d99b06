//! What the benchmark measures, and on what.

pub mod calls;
pub mod joins;
pub mod loads;
pub mod measures;
pub mod texts;
pub mod writer;
