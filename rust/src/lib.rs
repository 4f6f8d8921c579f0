//! Tests of the drive over the proved library: a checker that explains what a drive told, and what plays scripts for it.

pub mod bounds;
pub mod checker;
pub mod chip;
pub mod endurance;
pub mod every_cut;
pub mod failure;
pub mod fault;
pub mod ffi;
pub mod harness;
pub mod page_map;
pub mod parallel;
pub mod progress;
pub mod random;
pub mod random_lives;
pub mod script;
pub mod scripts;
pub mod second;
pub mod sector;
pub mod session;
pub mod shrink;
pub mod svg;
pub mod totals;
pub mod trace;

pub use ffi::{read_chip, seal, unseal, DATA, MARK, PAGE, PIECE};
pub use random::Random;
