//! A list of small cases: its case lines, or with `--answers` the answer lines to them: the Rust's, with what document 02 alters.
use oracle::program::{self, Arguments};
use oracle::sample;
use oracle::wanted;
use std::process::exit;

fn main() {
    let arguments = Arguments::read(&["--answers"]);
    program::need_rust();
    let list = sample::list();
    let missing = sample::missing(&list);
    if !missing.is_empty() {
        eprintln!("the list lacks {}", missing.join(", "));
        exit(1);
    }
    for (name, case) in &list {
        if arguments.has("--answers") {
            println!("{name} {}", wanted::answer(case));
        } else {
            println!("{}", case.line(name));
        }
    }
}
