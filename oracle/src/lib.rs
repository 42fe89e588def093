//! The Rust and the port on the same inputs: cases made from a seed, both answers, and what differs. See README.md.
pub mod compare;
pub mod damage;
pub mod fence;
pub mod make;
pub mod mirror;
pub mod model;
pub mod port;
pub mod program;
pub mod sample;
pub mod trap;
pub mod wanted;
