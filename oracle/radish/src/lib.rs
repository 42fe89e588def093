//! The Rust of mgrover1/radish, its Level 3 decode modules, behind case lines. Its text is taken at build time (build.rs).
#[cfg(source_at_hand)]
#[allow(dead_code, unused_imports, clippy::all)]
mod taken {
    include!(concat!(env!("OUT_DIR"), "/decode.rs"));
    pub use decode::entry;
}
#[cfg(source_at_hand)]
pub use taken::entry::{answer, read_sweep, read_symbology, running, Codes, Reading};

#[cfg(not(source_at_hand))]
mod absent;
#[cfg(not(source_at_hand))]
pub use absent::{answer, read_sweep, read_symbology, running, Codes, Reading};

/// Whether the Rust's source was there when this was built.
pub const AT_HAND: bool = cfg!(source_at_hand);
