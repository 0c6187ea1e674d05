//! The MAP codec, the scheduler, the modem and the node in plain Rust, written for speed. The proved crates are
//! compared with these, first in what they answer and then in what they cost.

pub mod body;
pub mod command;
pub mod cut;
pub mod dues;
pub mod fields;
pub mod held;
pub mod letters;
pub mod lines;
pub mod machine;
pub mod made;
pub mod modem;
pub mod names;
pub mod node;
pub mod places;
pub mod random;
pub mod records;
pub mod replay;
pub mod shapes;
pub mod table;
pub mod timing;
pub mod world;

#[cfg(test)]
mod tests;

/// The last minislot time that a command may have.
pub const LAST_TIME: u64 = 1 << 62;

/// The last unicast SID.
pub const LAST_SID: u16 = 8191;

/// The log has so many places.
pub const MOST_PLACES: u64 = 1_000_000;

/// A value of the log has at most so many bytes.
pub const LONGEST_VALUE: usize = 64;
