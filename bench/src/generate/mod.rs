//! Inputs drawn at random: valid by construction, with a rule broken, or
//! damaged.

pub mod blocks;
pub mod chains;
pub mod damage;
pub mod generator;
pub mod samples;
pub mod scripts;
pub mod sheets;
