//! Inputs made from a seed: product files, bodies of all three packets, good ones and damaged ones, field plans, and whole cases.
pub mod body;
pub mod cases;
pub mod file;
pub mod generic;
pub mod plans;
mod random;

pub use random::Rng;
