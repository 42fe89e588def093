//! Case lines on standard input, the Rust's answer lines on standard output, of a product with its unit.
use oracle::{program, wanted};

fn main() {
    program::need_rust();
    program::answer_lines(|case| wanted::with_unit(radish::answer(case)));
}
