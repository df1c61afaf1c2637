//! The hardware generator, written a second time from `docs/` alone.
//!
//! Everything here is the plain thing: all placements are listed, all ports of
//! a block are priced for each, and nothing is kept between two questions. It
//! exists to be compared with the programs of the repository.

pub mod adder;
pub mod arithmetic;
pub mod block;
pub mod chain;
pub mod compare;
pub mod cursor;
pub mod depth;
pub mod fusing;
pub mod generate;
pub mod integer;
pub mod measure;
pub mod planted;
pub mod port;
pub mod price;
pub mod programs;
pub mod random;
pub mod refusal;
pub mod row;
pub mod script;
pub mod sheet;
pub mod workload;
