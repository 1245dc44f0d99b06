//! The writer of bundles is tried: its lists of records, sound and malformed, and the buffers that it fills.

pub mod records;
pub mod writing;
