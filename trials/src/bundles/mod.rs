//! Bundles that are tried: known ones, random ones, those at the limits, damaged ones, and bytes of no sense.

pub mod damage;
pub mod edges;
pub mod known;
pub mod openings;
pub mod trial;
pub mod wild;
