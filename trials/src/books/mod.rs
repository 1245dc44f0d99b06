//! Books in lent words that are tried: opened, called, saved, loaded, taken over, and asked for their waiting lists.

pub mod any_words;
pub mod handed;
pub mod held;
pub mod lent;
pub mod packaged;
pub mod saved;
pub mod taken_over;
pub mod waiting;
pub mod wrong_lists;
