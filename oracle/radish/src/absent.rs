//! What stands here when the Rust's source was not there at build time. The programs look at `AT_HAND` first.
use lines::{Answer, Case, Lent, Refusal, Scheme};

pub struct Codes;
pub struct Reading;

pub fn running() -> bool {
    false
}

pub fn answer(_: &Case) -> Answer {
    unreachable!("the Rust source is not at hand")
}

pub fn read_symbology(_: &[u8]) -> Result<Codes, Refusal> {
    unreachable!("the Rust source is not at hand")
}

pub fn read_sweep(_: &[u8], _: i128, _: Scheme, _: &[u8], _: Lent) -> Result<Reading, Refusal> {
    unreachable!("the Rust source is not at hand")
}
