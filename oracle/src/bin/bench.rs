//! How long the Rust and the port take on the same inputs, in one process: a markdown table of medians.
//!
//!     bench [--rounds N]
//!
//! Runs are interleaved: each round times the Rust and the port once. A plain copy of the output arrays has rounds of its own, since
//! its arrays would push those of the two out of the caches. The port writes into buffers that are not cleared in between; the Rust
//! allocates its arrays, as it always does.
use lines::{Answer, Case, Lent, Packet, Scheme};
use oracle::make::plans::{self, Record};
use oracle::make::{body, generic, Rng};
use oracle::model::export;
use oracle::port::{Entries, Port, Timed};
use oracle::program::{self, Arguments};
use oracle::sample;
use oracle::wanted;
use std::hint::black_box;
use std::process::exit;
use std::time::Instant;

const CLOCK: u64 = 1_800_000_000;

fn main() {
    let arguments = Arguments::read(&["--rounds=", "--self"]);
    program::need_rust();
    let entries = program::port_or_self(&arguments);
    let rounds = arguments.number("--rounds").unwrap_or(101) as usize;
    let rng = &mut Rng::new(1, 1);
    println!("| packet | reading | Rust, µs | port, µs | Rust / port | copy, µs | port / copy |");
    println!("|---|---|---:|---:|---:|---:|---:|");
    let sixteen = body::bench16(rng, 720, 1840);
    let runs = [15, 4].map(|longest| body::bench_af1f(rng, 360, 460, longest));
    let levels = generic::bench28(rng, 360, 920);
    for (name, packet, radials, bins, body) in [
        ("16, 720 × 1840", Packet::P16, 720, 1840, &sixteen),
        ("AF1F, 360 × 460, runs to 15", Packet::Af1f, 360, 460, &runs[0]),
        ("AF1F, 360 × 460, runs to 4", Packet::Af1f, 360, 460, &runs[1]),
        ("28, 360 × 920", Packet::P28, 360, 920, &levels),
    ] {
        let lent = Lent { azimuths: radials, codes: radials * bins, physical: radials * bins };
        Job { entries, rounds, name, body, lent }.run(packet);
    }
    println!();
    println!("| packet | reading, class | sweep, µs | with gaps, µs | gaps / sweep |");
    println!("|---|---|---:|---:|---:|");
    for (name, body, radials, bins) in [
        ("16, 720 × 1840", &sixteen, 720, 1840),
        ("AF1F, 360 × 460, runs to 15", &runs[0], 360, 460),
        ("AF1F, 360 × 460, runs to 4", &runs[1], 360, 460),
        ("28, 360 × 920", &levels, 360, 920),
    ] {
        let lent = Lent { azimuths: radials, codes: radials * bins, physical: radials * bins };
        Job { entries, rounds, name, body, lent }.gaps();
    }
    println!();
    println!("| packet | two receptions, class | gaps, µs | merged, µs | merged / gaps |");
    println!("|---|---|---:|---:|---:|");
    for (name, body, radials, bins) in [
        ("16, 720 × 1840", &sixteen, 720, 1840),
        ("AF1F, 360 × 460, runs to 15", &runs[0], 360, 460),
        ("AF1F, 360 × 460, runs to 4", &runs[1], 360, 460),
        ("28, 360 × 920", &levels, 360, 920),
    ] {
        let lent = Lent { azimuths: radials, codes: radials * bins, physical: radials * bins };
        Job { entries, rounds, name, body, lent }.merge();
    }
    println!();
    println!("| packet | archive profile, class | sweep, µs | by the profile, µs | profile / sweep |");
    println!("|---|---|---:|---:|---:|");
    for (name, body, radials, bins) in [
        ("16, 720 × 1840", &sixteen, 720, 1840),
        ("AF1F, 360 × 460, runs to 15", &runs[0], 360, 460),
        ("AF1F, 360 × 460, runs to 4", &runs[1], 360, 460),
        ("28, 360 × 920", &levels, 360, 920),
    ] {
        let lent = Lent { azimuths: radials, codes: radials * bins, physical: radials * bins };
        Job { entries, rounds, name, body, lent }.strict();
    }
    println!();
    println!("| packet | plan, precipitation | sweep, µs | with totals, µs | totals / sweep |");
    println!("|---|---|---:|---:|---:|");
    let lent = Lent { azimuths: 720, codes: 720 * 1840, physical: 720 * 1840 };
    let job = Job { entries, rounds, name: "16, 720 × 1840", body: &sixteen, lent };
    job.totals("empty", &[]);
    job.totals("4,096 strips of 323 gates, 64 fields", &strips());
    println!();
    println!(
        "| packet | export to packet 16 | symbology, µs | export, µs | export / symbology | copy, µs | export / copy |"
    );
    println!("|---|---|---:|---:|---:|---:|---:|");
    for (name, body) in [("AF1F, 360 × 460, runs to 15", &runs[0]), ("AF1F, 360 × 460, runs to 4", &runs[1])] {
        let lent = Lent { azimuths: 360, codes: 360 * 460, physical: 0 };
        let plain = [&body[..18], &[0, 0], &body[20..]].concat();
        Job { entries, rounds, name, body: &plain, lent }.export(export::length(360, 460));
    }
    println!();
    println!("medians of {rounds} interleaved runs");
}

/// As many strips as a plan may have, over as many cells as the picture has.
fn strips() -> Vec<u8> {
    let strips = (0..4096).map(|k| Record::Strip([k % 720, k / 720 * 303, 323, k]));
    let mut records: Vec<Record> = strips.collect();
    for field in (0..64).rev() {
        records.insert(64 * field, Record::Field(field as u16));
    }
    plans::bytes(&records)
}

struct Job<'a> {
    entries: Entries,
    rounds: usize,
    name: &'a str,
    body: &'a [u8],
    lent: Lent,
}

impl Job<'_> {
    fn run(&self, packet: Packet) {
        self.agree(&Case::Sym { body: self.body.to_vec() });
        let mut port = Timed::new(self.entries, &[], CLOCK, Scheme::Class, self.body, self.lent);
        let mut copy = Copy::new(self.lent);
        self.row(
            "symbology",
            || drop(black_box(radish_fast::read_symbology(black_box(self.body)))),
            || assert_eq!(port.symbology(), 0),
            || copy.codes(),
        );
        for (name, scheme, file) in sample::bench_files() {
            let fits = match packet {
                Packet::P16 => !matches!(scheme, Scheme::Legacy(_)),
                Packet::Af1f => true,
                Packet::P28 => matches!(scheme, Scheme::Precip(_) | Scheme::Class),
            };
            if fits {
                self.sweep(name, scheme, &file);
            }
        }
    }

    fn sweep(&self, name: &str, scheme: Scheme, file: &[u8]) {
        let (lent, body) = (self.lent, self.body);
        self.agree(&Case::Sweep { clock: CLOCK.into(), scheme, lent, file: file.to_vec(), body: body.to_vec() });
        let mut port = Timed::new(self.entries, file, CLOCK, scheme, body, lent);
        let mut copy = Copy::new(lent);
        self.row(
            &format!("sweep, {name}"),
            || drop(black_box(radish_fast::read_sweep(file, CLOCK.into(), scheme, black_box(body), lent))),
            || assert_eq!(port.sweep(), 0),
            || copy.all(),
        );
    }

    /// The reading with gaps beside the ordinary one; the Rust has none.
    fn gaps(&self) {
        let file = sample::bench_files().into_iter().find(|(_, scheme, _)| *scheme == Scheme::Class).unwrap().2;
        let mut one = Timed::new(self.entries, &file, CLOCK, Scheme::Class, self.body, self.lent);
        let mut other = Timed::new(self.entries, &file, CLOCK, Scheme::Class, self.body, self.lent);
        let [sweep, gaps] =
            self.medians([Timer::new(|| assert_eq!(one.sweep(), 0)), Timer::new(|| assert_eq!(other.gaps(), 0))]);
        println!("| {} | whole body | {sweep:.1} | {gaps:.1} | {:.2} |", self.name, gaps / sweep);
    }

    /// The body merged with another of the same bytes beside its reading with gaps; the Rust has neither.
    fn merge(&self) {
        let file = sample::bench_files().into_iter().find(|(_, scheme, _)| *scheme == Scheme::Class).unwrap().2;
        let [mut one, mut other] = [0, 1].map(|_| Timed::new(self.entries, &file, CLOCK, Scheme::Class, self.body, self.lent));
        let second = self.body.to_vec();
        let [gaps, merged] =
            self.medians([Timer::new(|| assert_eq!(one.gaps(), 0)), Timer::new(|| assert_eq!(other.merge(&second), 0))]);
        println!("| {} | no gap in either | {gaps:.1} | {merged:.1} | {:.2} |", self.name, merged / gaps);
    }

    /// The reading by the archive profile beside the ordinary one; the Rust has none.
    fn strict(&self) {
        let file = sample::bench_files().into_iter().find(|(_, scheme, _)| *scheme == Scheme::Class).unwrap().2;
        let (lent, body) = (self.lent, self.body.to_vec());
        let case = Case::Strict { clock: CLOCK.into(), scheme: Scheme::Class, lent, file: file.clone(), body };
        self.alike(&case, wanted::answer(&case));
        let mut one = Timed::new(self.entries, &file, CLOCK, Scheme::Class, self.body, self.lent);
        let mut other = Timed::new(self.entries, &file, CLOCK, Scheme::Class, self.body, self.lent);
        let [sweep, strict] =
            self.medians([Timer::new(|| assert_eq!(one.sweep(), 0)), Timer::new(|| assert_eq!(other.strict(), 0))]);
        println!("| {} | whole body | {sweep:.1} | {strict:.1} | {:.2} |", self.name, strict / sweep);
    }

    /// A plan beside the ordinary reading; the Rust has none.
    fn totals(&self, name: &str, plan: &[u8]) {
        let files = sample::bench_files();
        let (_, scheme, file) = files.iter().find(|(_, scheme, _)| matches!(scheme, Scheme::Precip(_))).unwrap();
        let (scheme, lent, body) = (*scheme, self.lent, self.body.to_vec());
        let case = Case::Sweep { clock: CLOCK.into(), scheme, lent, file: file.clone(), body };
        let case = case.with_plan(64, plan.to_vec());
        self.alike(&case, wanted::answer(&case));
        let [mut one, mut other] = [0, 1].map(|_| Timed::new(self.entries, file, CLOCK, scheme, self.body, lent));
        let [sweep, totals] =
            self.medians([Timer::new(|| assert_eq!(one.sweep(), 0)), Timer::new(|| assert_eq!(other.totals(plan), 0))]);
        println!("| {} | {name} | {sweep:.1} | {totals:.1} | {:.2} |", self.name, totals / sweep);
    }

    /// An export beside symbology, which reads the same body, and a plain copy of what is written; the Rust has none.
    fn export(&self, length: usize) {
        let case = Case::Export { out: length, body: self.body.to_vec() };
        self.alike(&case, wanted::answer(&case));
        let [mut one, mut other] = [0, 1].map(|_| Timed::new(self.entries, &[], CLOCK, Scheme::Class, self.body, self.lent));
        let [symbology, export] =
            self.medians([Timer::new(|| assert_eq!(one.symbology(), 0)), Timer::new(|| assert_eq!(other.export(), 0))]);
        let (mut to, from) = (vec![7u8; length], vec![9u8; length]);
        let [copy] = self.medians([Timer::new(|| {
            to.copy_from_slice(black_box(&from));
            black_box(&to);
        })]);
        let (beside, over) = (export / symbology, export / copy);
        println!("| {} | {length} bytes | {symbology:.1} | {export:.1} | {beside:.2} | {copy:.1} | {over:.2} |", self.name);
    }

    /// What is timed must give the same answer.
    fn agree(&self, case: &Case) {
        self.alike(case, wanted::altered(case, radish_fast::answer(case)));
    }

    fn alike(&self, case: &Case, rust: Answer) {
        assert!(!matches!(rust, Answer::Refused(_)), "{}: {rust}", self.name);
        let port = Port::new(self.entries).run(case, self.lent);
        if !rust.same(&port.answer) || port.fault.is_some() {
            eprintln!("packet {}: the answers differ; `compare` says more", self.name);
            exit(1);
        }
    }

    /// Each round times every one once.
    fn medians<const N: usize>(&self, mut timers: [Timer; N]) -> [f64; N] {
        for _ in 0..self.rounds {
            timers.iter_mut().for_each(Timer::round);
        }
        timers.map(Timer::median)
    }

    fn row(&self, reading: &str, rust: impl FnMut(), port: impl FnMut(), copy: impl FnMut()) {
        let [rust, port] = self.medians([Timer::new(rust), Timer::new(port)]);
        let [copy] = self.medians([Timer::new(copy)]);
        println!(
            "| {} | {reading} | {rust:.1} | {port:.1} | {:.2} | {copy:.1} | {:.2} |",
            self.name,
            rust / port,
            port / copy
        );
    }
}

/// Copies of the output arrays.
struct Copy {
    azimuths: [Vec<f64>; 2],
    codes: [Vec<u16>; 2],
    physical: [Vec<f32>; 2],
}

impl Copy {
    fn new(lent: Lent) -> Copy {
        Copy {
            azimuths: [vec![1.5; lent.azimuths], vec![0.5; lent.azimuths]],
            codes: [vec![7; lent.codes], vec![9; lent.codes]],
            physical: [vec![1.5; lent.physical], vec![0.5; lent.physical]],
        }
    }

    fn codes(&mut self) {
        let [to, from] = &mut self.azimuths;
        to.copy_from_slice(black_box(from));
        let [to, from] = &mut self.codes;
        to.copy_from_slice(black_box(from));
    }

    fn all(&mut self) {
        self.codes();
        let [to, from] = &mut self.physical;
        to.copy_from_slice(black_box(from));
    }
}

/// One of the things that are timed in turn.
struct Timer<'a> {
    run: Box<dyn FnMut() + 'a>,
    /// Runs in one sample, so that a sample is long enough for the clock.
    repeats: usize,
    samples: Vec<f64>,
}

impl<'a> Timer<'a> {
    fn new(run: impl FnMut() + 'a) -> Timer<'a> {
        let mut timer = Timer { run: Box::new(run), repeats: 1, samples: vec![] };
        while timer.sample() * (timer.repeats as f64) < 200.0 {
            timer.repeats *= 2;
        }
        timer
    }

    /// Microseconds for one run.
    fn sample(&mut self) -> f64 {
        let start = Instant::now();
        for _ in 0..self.repeats {
            (self.run)();
        }
        start.elapsed().as_secs_f64() * 1e6 / self.repeats as f64
    }

    fn round(&mut self) {
        let sample = self.sample();
        self.samples.push(sample);
    }

    fn median(mut self) -> f64 {
        self.samples.sort_by(f64::total_cmp);
        self.samples[self.samples.len() / 2]
    }
}
