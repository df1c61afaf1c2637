//! Comparing the programs with the reference, byte for byte.

pub mod calls;
pub mod driver;
pub mod families;
pub mod report;
pub mod subject;
pub mod tally;
