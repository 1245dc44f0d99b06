//! What the trials share: the compiled `daybook`, dice, the counting of checks and of what occurred.

pub mod around;
pub mod checks;
pub mod daybook;
pub mod dice;
pub mod seen;
pub mod tallies;
