//! Messages to a living ledger that are tried, and the rows of their replies that have to occur.

pub mod history;
pub mod late;
pub mod ledgers;
pub mod rows;
pub mod self_payments;
pub mod ties;
