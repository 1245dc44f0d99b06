//! Whole groups of seats, some of them bad. An honest seat that has the newest rules from its opening on is the real
//! `daybook`; one that has not is the second program under one of the two earlier sets, and it may switch in the
//! middle, once or twice. Demand 3 is checked on what all of them reply, that tied slips are put forward alike, that
//! what is accepted is put forward late, by the newest rules and once, and that each two honest seats' bundles, joined,
//! tell a bad seat or none.

pub mod alike;
pub mod breach;
pub mod council;
pub mod coverage;
pub mod demand3;
pub mod evidence;
pub mod keeper;
pub mod late;
pub mod lies;
pub mod network;
pub mod plan;
pub mod premises;
pub mod printed;
pub mod record;
pub mod seat;
pub mod slate;
pub mod slips;
pub mod switches;
pub mod world;
