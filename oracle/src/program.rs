//! What the programs share: what they need at hand, and their arguments.
use crate::mirror;
use crate::port::{linked, Entries};
use lines::{Answer, Case};
use std::io::{stdin, stdout, BufRead, BufWriter, Write};
use std::process::exit;

/// Stops where the Rust's source was not there at build time.
pub fn need_rust() {
    if !radish::AT_HAND {
        eprintln!("the Rust source is not at hand");
        eprintln!("set L3_SOURCE to the folder that holds it, or put it at ../shared/docs/src beside the repository, and build again");
        exit(2);
    }
    // where the Rust overflows the answer is PANIC, and no message is needed
    let message = std::panic::take_hook();
    std::panic::set_hook(Box::new(move |info| {
        if !radish::running() {
            message(info);
        }
    }));
}

/// The port. Stops where it was not there at build time.
pub fn need_port() -> Entries {
    linked().unwrap_or_else(|| {
        eprintln!("the port is not at hand");
        eprintln!(
            "run `tools/staticlib` at the repository's root (or set L3_PORT to the folder of libcapi.a), and build again"
        );
        exit(2)
    })
}

/// The port, or the Rust in its place under `--self`.
pub fn port_or_self(arguments: &Arguments) -> Entries {
    if arguments.has("--self") {
        need_rust();
        mirror::entries()
    } else {
        need_port()
    }
}

/// The words after the program's name.
pub struct Arguments(Vec<String>);

impl Arguments {
    /// Stops on a word that is not among `known`. A name that ends in `=` takes the word after it as its value.
    pub fn read(known: &[&str]) -> Arguments {
        let words: Vec<String> = std::env::args().skip(1).collect();
        let mut rest = words.iter();
        while let Some(word) = rest.next() {
            let valued = known.iter().any(|k| k.strip_suffix('=') == Some(word));
            if !valued && !known.contains(&word.as_str()) {
                eprintln!("{word}: not known here");
                exit(2);
            }
            if valued && rest.next().is_none() {
                eprintln!("{word}: its value is missing");
                exit(2);
            }
        }
        Arguments(words)
    }

    pub fn has(&self, name: &str) -> bool {
        self.0.iter().any(|w| w == name)
    }

    pub fn number(&self, name: &str) -> Option<u64> {
        let at = self.0.iter().position(|w| w == name)?;
        Some(self.0[at + 1].parse().unwrap_or_else(|_| {
            eprintln!("{name}: {} is no number", self.0[at + 1]);
            exit(2)
        }))
    }
}

/// Reads case lines and prints an answer line for each. Empty lines and lines that start with `#` are skipped.
pub fn answer_lines(mut answer: impl FnMut(&Case) -> Answer) {
    let mut out = BufWriter::new(stdout().lock());
    for (number, line) in stdin().lock().lines().enumerate() {
        let line = line.expect("standard input is text");
        if line.is_empty() || line.starts_with('#') {
            continue;
        }
        match Case::parse(&line) {
            Ok((name, case)) => writeln!(out, "{name} {}", answer(&case)).expect("standard output takes it"),
            Err(e) => {
                out.flush().ok();
                eprintln!("line {}: {e}", number + 1);
                exit(2);
            }
        }
    }
}
