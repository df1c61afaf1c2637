//! Wiring sheets, written and read.

mod read;
mod write;

pub use read::{read, SheetRefusal};
pub use write::{write, write_in_order, write_into};

/// The most bytes of a sheet.
pub const LONGEST: usize = 4096;
