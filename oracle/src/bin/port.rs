//! Case lines on standard input, the port's answer lines on standard output. A broken promise goes to standard error.
use lines::Lent;
use oracle::port::Port;
use oracle::program::{self, Arguments};

fn main() {
    let arguments = Arguments::read(&["--self"]);
    let mut port = Port::new(program::port_or_self(&arguments));
    program::answer_lines(|case| {
        let outcome = port.run(case, Lent::MOST);
        if let Some(fault) = outcome.fault {
            eprintln!("{fault}\n  {}", case.line("fault"));
        }
        outcome.answer
    });
}
