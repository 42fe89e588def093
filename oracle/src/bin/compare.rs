//! The Rust and the port on cases made from a seed: every difference with its case line, the counts, and `N cases, D differences`.
//!
//!     compare [--seed S] [--cases N] [--seconds T] [--show D] [--only K]
//!
//! Each run has the fixed cases and then N cases from the seed, or as many as T seconds allow. `--show D` prints the first D
//! differences instead of all. `--only K` makes case K of the seed alone and prints it. `--self` puts the Rust in the port's place, and `--slips` sets one known slip after another there.
use oracle::compare::Compare;
use oracle::mirror::{self, SLIPS};
use oracle::program::{self, Arguments};
use oracle::trap;
use std::process::exit;
use std::time::{Duration, Instant};

fn main() {
    let arguments = Arguments::read(&["--seed=", "--cases=", "--seconds=", "--only=", "--show=", "--self", "--slips"]);
    program::need_rust();
    let seed = arguments.number("--seed").unwrap_or(1);
    if arguments.has("--slips") {
        exit(slips(seed, arguments.number("--cases").unwrap_or(20_000)));
    }
    let mut compare = Compare::new(program::port_or_self(&arguments));
    compare.show = arguments.number("--show").unwrap_or(u64::MAX);
    trap::set();
    if let Some(number) = arguments.number("--only") {
        compare.every = true;
        compare.random(seed, number);
    } else {
        let seconds = arguments.number("--seconds").map(Duration::from_secs);
        let cases = arguments.number("--cases").unwrap_or(if seconds.is_some() { u64::MAX } else { 200_000 });
        run(&mut compare, seed, cases, seconds);
    }
    let counts = &compare.counts;
    println!("{} cases, {} differences", counts.cases, counts.differences);
    exit(if counts.differences > 0 { 1 } else { 0 });
}

fn run(compare: &mut Compare, seed: u64, cases: u64, limit: Option<Duration>) {
    let start = Instant::now();
    compare.fixed(seed);
    let (fixed, after) = (compare.counts.cases, start.elapsed());
    let mut number = 0;
    while number < cases && limit.is_none_or(|l| start.elapsed() < l) {
        // a look at the clock now and then
        for _ in 0..1000.min(cases - number) {
            compare.random(seed, number);
            number += 1;
        }
        trap::still_running();
    }
    let (made, took) = (compare.counts.cases - fixed, start.elapsed() - after);
    compare.counts.print();
    println!("seed {seed}: {fixed} fixed cases in {:.1} s", after.as_secs_f64());
    println!(
        "and {made} made ones in {:.1} s, {:.0} a second",
        took.as_secs_f64(),
        made as f64 / took.as_secs_f64().max(1e-9)
    );
}

/// Every slip must be found: the number that were not.
fn slips(seed: u64, cases: u64) -> i32 {
    let mut missed = 0;
    for slip in SLIPS {
        mirror::set_slip(Some(*slip));
        let mut compare = Compare::new(mirror::entries());
        compare.show = 0;
        for number in 0..cases {
            compare.random(seed, number);
        }
        let counts = compare.counts;
        println!("{:<26} {:>7} differences in {} cases", format!("{slip:?}"), counts.differences, counts.cases);
        missed += (counts.differences == 0) as i32;
    }
    println!("{} slips, {missed} not found", SLIPS.len());
    missed.min(1)
}
