//! Both answers to each case, what differs, and the counts.
use crate::damage;
use crate::make::{cases, Rng};
use crate::model;
use crate::port::{Entries, Outcome, Port};
use crate::trap;
use crate::wanted;
use lines::{same_f32, Answer, Case, Lent, Packet, Refusal, Scheme, Sweep, NAMES};
use std::collections::BTreeMap;

mod charges;
mod clear;
mod exports;
mod fixed;
mod merges;
mod plans;
mod strict;

/// How many were accepted and how many refused.
#[derive(Debug, Clone, Copy, Default)]
pub struct Split {
    pub accepted: u64,
    pub refused: u64,
}

#[derive(Debug, Default)]
pub struct Counts {
    pub cases: u64,
    pub differences: u64,
    pub accepted: u64,
    /// By the table's number.
    pub refusals: BTreeMap<u32, u64>,
    pub kinds: BTreeMap<&'static str, u64>,
    /// Sweeps whose body names the packet.
    pub sweeps: [[Split; 5]; 3],
    /// Gap readings whose body names the packet, and how many of them gave a gap.
    pub gaps: [[Split; 5]; 3],
    pub with_gap: [u64; 3],
    /// Merged readings whose first body names the packet; bodies merged with themselves, and receptions that merge and that disagree.
    pub merges: [[Split; 5]; 3],
    pub merge_laws: [u64; 3],
    /// Field plans with a body that names the packet.
    pub plans: [[Split; 5]; 3],
    /// Accepted plans with a strip cut in two, with a strip moved, with another code in a cell.
    pub plan_laws: [u64; 3],
    /// Calls of `l3_plan_totals`; of them those held to what is refused of the scale fields, and those of merged pictures.
    pub totals_alone: [u64; 3],
    /// Charges beside that of a larger total, and beside those with one rate altered.
    pub charge_laws: [u64; 2],
    /// Second bodies of demand 3.
    pub damaged: [[Split; 5]; 3],
    /// Readings of clear scans, and bodies held to one that agrees with them on the bytes that are read.
    pub clear: [[Split; 5]; 3],
    pub clear_alike: u64,
    /// Readings by the archive profile whose body names the packet, and exports held to the ordinary reading of them.
    pub strict: [[Split; 5]; 3],
    pub strict_exports: u64,
    pub exports: Split,
    /// Written bodies read again, and sweep readings of them held to the original's.
    pub export_laws: [u64; 2],
    /// Description records held to the file's bytes.
    pub records: u64,
}

pub struct Compare {
    port: Port,
    pub counts: Counts,
    /// How many differences are printed.
    pub show: u64,
    /// Whether every case is printed.
    pub every: bool,
}

impl Compare {
    pub fn new(entries: Entries) -> Compare {
        Compare { port: Port::new(entries), counts: Counts::default(), show: u64::MAX, every: false }
    }

    /// Runs both on a case and holds the port's answer to the Rust's, with what document 02 alters.
    pub fn both(&mut self, case: &Case) -> (Answer, Answer) {
        let rust = wanted::answer(case);
        self.counts.count(case, &rust);
        let lent = match &rust {
            Answer::Picture(p) if p.radials == 0 && self.counts.cases.is_multiple_of(2) => {
                Lent { azimuths: 0, codes: 0, physical: 0 }
            }
            Answer::Picture(p) => Lent { azimuths: p.radials + 1, codes: p.codes.len() + 3, physical: 0 },
            _ => Lent { azimuths: 5, codes: 40, physical: 0 },
        };
        let port = self.hold(case, &rust, lent);
        if let Answer::Picture(p) = &rust {
            self.short_symbology(case, p.radials, p.codes.len());
        }
        if rust.same(&port) {
            self.values(case, &rust);
        }
        self.legacy(case, &port);
        (rust, port)
    }

    /// Holds the port to an answer that document 01's table gives where the Rust is outside its domain.
    pub fn table(&mut self, case: &Case, answer: Answer) {
        self.counts.count(case, &answer);
        let port = self.hold(case, &answer, Lent { azimuths: 0, codes: 0, physical: 0 });
        self.values(case, &answer);
        self.legacy(case, &port);
    }

    fn hold(&mut self, case: &Case, want: &Answer, lent: Lent) -> Answer {
        let Outcome { answer, place, raw, fault } = trap::during(case, || self.port.run(case, lent));
        let mut why = vec![];
        if !want.same(&answer) {
            why.push("the answers differ".to_string());
        }
        why.extend(fault);
        let place_in = match case {
            Case::Token { file }
            | Case::Sweep { file, .. }
            | Case::Strict { file, .. }
            | Case::Gaps { file, .. }
            | Case::Merge { file, .. }
            | Case::Plan { file, .. } => Some(file),
            _ => None,
        };
        if let (Some(place), Some(file)) = (place, place_in) {
            if model::token_place(file) != Some(place) {
                why.push(format!("the token's place is given as {place}"));
            }
        }
        why.extend(raw.and_then(|raw| self.raw(case, &answer, raw)));
        if !why.is_empty() {
            self.differs(&why.join("; "), case, &[("wanted", want), ("port", &answer)]);
        } else if self.every {
            println!("{}\n  {answer}", case.line("case"));
        }
        answer
    }

    /// M-110: the whole numbers of a description record are those of the file's bytes, and its floats the stated operations on them.
    fn raw(&mut self, case: &Case, answer: &Answer, raw: [i64; 4]) -> Option<String> {
        let (file, block) = match case {
            Case::Pdb { file, block } => (file, *block),
            Case::Sweep { file, .. }
            | Case::Strict { file, .. }
            | Case::Gaps { file, .. }
            | Case::Merge { file, .. }
            | Case::Plan { file, .. } => {
                (file, model::header_place(file).map_or(0, |header| header + 18))
            }
            _ => return Some("a description record".into()),
        };
        let fields = match answer {
            Answer::Fields(fields) => fields,
            Answer::Sweep(sweep) | Answer::Gaps(sweep, _) | Answer::Totals(sweep, _) => &sweep.fields,
            _ => return None,
        };
        self.counts.records += 1;
        let floats = [fields.latitude, fields.longitude, fields.height, fields.elevation];
        if model::raw_fields(file, block) != Some(raw) {
            return Some(format!("ints[16] to [19] are {raw:?}"));
        }
        let beside = model::floats_of(raw).map(f64::to_bits) == floats.map(f64::to_bits);
        (!beside).then(|| format!("the floats beside {raw:?} are {floats:?}"))
    }

    /// Too little lent to symbology is 36, after everything else that it refuses; nothing is too little for no radials.
    fn short_symbology(&mut self, case: &Case, radials: usize, cells: usize) {
        if radials == 0 {
            return;
        }
        let lent = [(radials - 1, cells, 0), (radials, cells - 1, 1), (0, 0, 0)];
        let (azimuths, codes, buffer) = lent[(self.counts.cases % 3) as usize];
        let want = Answer::Refused(Refusal::new(36, &[buffer]));
        self.counts.cases += 1;
        self.counts.count_refusal(36);
        self.hold(case, &want, Lent { azimuths, codes, physical: 0 });
    }

    /// The values alone: those of an accepted sweep, 36 where a place is missing, and before it what the scale fields refuse.
    fn values(&mut self, case: &Case, answer: &Answer) {
        let (file, block, scheme) = match case {
            Case::Sweep { file, scheme, .. } => (file, None, *scheme),
            Case::Lin { file, block } => (file, Some(*block), Scheme::Halfword),
            Case::Flt { file, block } => (file, Some(*block), Scheme::Float),
            Case::Prc { file, block, factor } => (file, Some(*block), Scheme::Precip(*factor)),
            Case::Thr { file, block } => (file, Some(*block), Scheme::Legacy(1.0)),
            _ => return,
        };
        match (answer, block) {
            (Answer::Sweep(sweep), _) => {
                let codes = &sweep.picture.codes;
                let spare = (self.counts.cases % 4) as usize;
                let block = trap::during(case, || self.port.block(file));
                let short = Answer::Refused(Refusal::new(36, &[2]));
                self.hold_values(case, answer, (file, block, scheme), codes, codes.len() + spare);
                if let Some(fewer) = codes.len().checked_sub(1) {
                    self.hold_values(case, &short, (file, block, scheme), codes, fewer);
                }
            }
            (Answer::Refused(refusal), Some(block)) => {
                self.hold_values(case, answer, (file, block, scheme), &[0, 1, 2], 2);
                if let Scheme::Precip(_) = scheme {
                    // no plan; of 2 × 3 cells every code, and one fewer
                    self.totals_unscaled(case, refusal, &[9; 6], (&[], 1));
                    self.totals_unscaled(case, refusal, &[9; 5], (&[], 1));
                }
            }
            _ => {}
        }
    }

    fn hold_values(
        &mut self,
        case: &Case,
        want: &Answer,
        (file, block, scheme): (&[u8], usize, Scheme),
        codes: &[u16],
        lent: usize,
    ) {
        self.counts.cases += 1;
        *self.counts.kinds.entry("values").or_default() += 1;
        match want.refusal() {
            Some(r) => self.counts.count_refusal(r.number),
            None => self.counts.accepted += 1,
        }
        let given = trap::during(case, || self.port.values(file, block, scheme, codes, lent));
        let fault = self.port.take_fault();
        let port = match (given, want) {
            (Ok(physical), Answer::Sweep(sweep)) => Answer::Sweep(Box::new(Sweep { physical, ..(**sweep).clone() })),
            (Ok(_), _) => Answer::Accepted,
            (Err(refusal), _) => Answer::Refused(refusal),
        };
        if !want.same(&port) || fault.is_some() {
            let why = format!("the values alone in {lent} places {}", fault.unwrap_or_default());
            self.differs(&why, case, &[("wanted", want), ("port", &port)]);
        }
    }

    /// M-103, between the port's entries: what `l3_legacy16` gives of `l3_threshold`'s 32 bytes are the levels that a legacy sweep and
    /// `l3_physical` give, and both refuse with 3 and index 22 exactly if `l3_threshold` does.
    fn legacy(&mut self, case: &Case, given: &Answer) {
        let head = |r: &Refusal| matches!(r.number, 1 | 2 | 4..=6) || r.number == 3 && r.ints[0] != 22;
        let (file, block, post_scale) = match case {
            Case::Thr { file, block } => {
                let odd = [1.0, 0.514444, -0.0, f32::INFINITY, f32::MIN_POSITIVE, f32::NAN];
                (file, *block, odd[(self.counts.cases % 6) as usize])
            }
            Case::Sweep { file, scheme: Scheme::Legacy(post_scale), .. }
            | Case::Gaps { file, scheme: Scheme::Legacy(post_scale), .. }
            | Case::Merge { file, scheme: Scheme::Legacy(post_scale), .. }
                if !given.refusal().is_some_and(head) =>
            {
                (file, trap::during(case, || self.port.block(file)), *post_scale)
            }
            _ => return,
        };
        let levels = trap::during(case, || self.port.levels_at(file, block, post_scale));
        let codes: Vec<u16> = (0..16).collect();
        let values = trap::during(case, || self.port.values(file, block, Scheme::Legacy(post_scale), &codes, 18));
        let values = values.map_or_else(Answer::Refused, |v| Answer::Levels(v.try_into().unwrap()));
        self.counts.cases += 1;
        *self.counts.kinds.entry("levels").or_default() += 1;
        match levels.refusal() {
            Some(r) => self.counts.count_refusal(r.number),
            None => self.counts.accepted += 1,
        }
        let valued = |sweep: &Sweep, marks: &[u8], levels: &[f32; 16]| {
            let cells = sweep.picture.codes.iter().zip(&sweep.physical).enumerate();
            let mut whole = cells.filter(|(cell, _)| marks.get(cell / sweep.picture.bins) != Some(&1));
            whole.all(|(_, (code, value))| levels.get(*code as usize).is_some_and(|level| same_f32(*value, *level)))
        };
        let read = match (given, &levels) {
            (Answer::Thresholds(_), Answer::Levels(_)) => true,
            (Answer::Sweep(sweep), Answer::Levels(levels)) => valued(sweep, &[], levels),
            (Answer::Gaps(sweep, marks), Answer::Levels(levels)) => valued(sweep, marks, levels),
            (Answer::Refused(r), Answer::Levels(_)) => r.number != 3,
            (Answer::Refused(r), Answer::Refused(refused)) => r.same(refused),
            _ => false,
        };
        let fault = self.port.take_fault();
        if !read || !levels.same(&values) || fault.is_some() {
            let why = format!("not the levels of the thresholds {}", fault.unwrap_or_default());
            self.differs(&why, case, &[("by the thresholds", &levels), ("l3_physical", &values), ("port", given)]);
        }
    }

    /// One XDR item read at a position: the Rust reads what is left from there on.
    pub fn xdr_at(&mut self, op: char, payload: &[u8], at: usize) {
        let rest = payload.get(at..).unwrap_or(&[]);
        let case = Case::Xdr { ops: op.into(), payload: rest.to_vec() };
        let mut rust = radish::answer(&case);
        self.counts.count(&case, &rust);
        if let Answer::Xdr { position, .. } = &mut rust {
            *position += at;
        }
        let (item, position) = trap::during(&case, || self.port.xdr_at(op, payload, at));
        let fault = self.port.take_fault();
        let (items, refusal) = match item {
            Ok(item) => (vec![item], None),
            Err(refusal) => (vec![], Some(refusal)),
        };
        let port = Answer::Xdr { items, refusal, position };
        if !rust.same(&port) || fault.is_some() {
            let why = format!("read at {at} of {} bytes {}", payload.len(), fault.unwrap_or_default());
            self.differs(&why, &case, &[("rust", &rust), ("port", &port)]);
        }
    }

    /// Demand 3: an accepted body, and bodies that differ from it in data bytes and unread bytes alone.
    pub fn damage(&mut self, rng: &mut Rng) {
        let case = cases::accepted(rng);
        let (Answer::Sweep(first), sweep) = self.both(&case) else { return };
        let marks = first.picture.radials + rng.below(3);
        self.gaps(&case.clone().with_marks(marks), &sweep);
        let Case::Sweep { clock, scheme, lent, file, body } = case else { return };
        let layout = model::layout(&body);
        for _ in 0..3 {
            let second = damage::damaged(rng, &layout, &body);
            let wanted = damage::predicted(&first, &layout, [&body, &second], &file, scheme);
            let case = Case::Sweep { clock, scheme, lent, file: file.clone(), body: second };
            let sweeps = self.both(&case);
            self.counts.damaged[layout.packet as usize][scheme.index()].count(&wanted[0]);
            let with_marks = case.clone().with_marks(marks);
            let gaps = self.gaps(&with_marks, &sweeps.1);
            for (want, case, (reference, port)) in [(&wanted[0], &case, &sweeps), (&wanted[1], &with_marks, &gaps)] {
                for (who, answer) in [("reference", reference), ("port", port)] {
                    if !want.same(answer) {
                        self.differs("not the answer that the rows' data make", case, &[("wanted", want), (who, answer)]);
                    }
                }
            }
        }
    }

    /// M-101: a gap reading, and what must hold between it and the port's ordinary reading of the same input.
    pub fn gaps(&mut self, case: &Case, ordinary: &Answer) -> (Answer, Answer) {
        let (want, port) = self.both(case);
        let gap = |r: &Refusal| matches!(r.number, 22 | 34);
        let holds = match (&port, ordinary) {
            (Answer::Gaps(with, marks), Answer::Sweep(whole)) => marks.iter().all(|m| *m == 0) && with.same(whole),
            (Answer::Gaps(_, marks), Answer::Refused(r)) => gap(r) && marks.contains(&1),
            (Answer::Refused(r), Answer::Sweep(_)) => r.same(&Refusal::new(36, &[3])),
            (Answer::Refused(with), Answer::Refused(r)) => !gap(with) && (gap(r) || with.same(r)),
            _ => false,
        };
        if !holds {
            self.differs("not what the ordinary reading lets it be", case, &[("ordinary", ordinary), ("port", &port)]);
        }
        (want, port)
    }

    /// A gap reading and the ordinary one.
    pub fn both_readings(&mut self, case: &Case) {
        let (_, ordinary) = self.both(&case.clone().ordinary());
        self.gaps(case, &ordinary);
    }

    /// The case with this number, made from the seed.
    pub fn random(&mut self, seed: u64, number: u64) {
        let rng = &mut Rng::new(seed, number);
        let case = match rng.below(100) {
            0..=23 => cases::sweep(rng),
            24..=27 => return self.strict(&cases::strict(rng)),
            28..=30 => return self.export(rng),
            31..=34 => return drop(self.merge(&cases::merge(rng))),
            35 | 36 => return self.receptions(rng),
            37 => cases::charge(rng),
            38 => return self.charge_laws(rng),
            39..=42 => return self.clear(rng),
            43 => cases::level_count(rng),
            44..=48 => return drop(self.plan(&cases::plan(rng))),
            49 | 50 => return self.plan_laws(rng),
            51 => cases::date(rng),
            52..=59 => return self.both_readings(&cases::gaps(rng)),
            60 => cases::each(rng),
            61 => cases::read(rng),
            62..=71 => cases::symbology(rng),
            72..=77 => return self.damage(rng),
            78 | 79 => cases::token(rng),
            80 => cases::message_header(rng),
            81 => cases::product(rng),
            82 => cases::name(rng),
            83..=85 => cases::scan_time(rng),
            86 | 87 => cases::field(rng),
            88..=92 => cases::block(rng),
            93 => cases::levels(rng),
            94 => cases::trailing(rng),
            95 | 96 => return self.outside(rng),
            _ => cases::xdr(rng),
        };
        self.both(&case);
    }

    fn differs(&mut self, why: &str, case: &Case, answers: &[(&str, &Answer)]) {
        self.counts.differences += 1;
        let number = self.counts.differences;
        if number > self.show {
            return;
        }
        println!("difference {number}: {why}\n  {}", shown(&case.line(&format!("d{number}")), number));
        for (who, answer) in answers {
            println!("  {who}: {answer}");
        }
    }

    fn promise(&mut self, what: &str, kept: bool) {
        self.counts.cases += 1;
        if !kept {
            self.counts.differences += 1;
            if self.counts.differences <= self.show {
                println!("difference {}: {what}", self.counts.differences);
            }
        }
    }
}

/// A case line, or where it was put if it is very long.
fn shown(line: &str, number: u64) -> String {
    if line.len() <= 100_000 {
        return line.into();
    }
    let path = std::env::temp_dir().join(format!("l3-difference-{number}.cases"));
    match std::fs::write(&path, format!("{line}\n")) {
        Ok(()) => format!("the case line is in {}", path.display()),
        Err(e) => format!("a case line of {} characters, not written: {e}", line.len()),
    }
}

impl Split {
    fn count(&mut self, answer: &Answer) {
        if answer.refusal().is_some() {
            self.refused += 1
        } else {
            self.accepted += 1
        }
    }
}

impl Counts {
    pub fn count(&mut self, case: &Case, answer: &Answer) {
        self.cases += 1;
        *self.kinds.entry(case.kind()).or_default() += 1;
        match answer.refusal() {
            Some(r) => self.count_refusal(r.number),
            None => self.accepted += 1,
        }
        if let Case::Export { .. } = case {
            self.exports.count(answer);
        }
        if let Case::Sweep { scheme, body, .. }
        | Case::Strict { scheme, body, .. }
        | Case::Gaps { scheme, body, .. }
        | Case::Merge { scheme, body, .. }
        | Case::Plan { scheme, body, .. } = case
        {
            let packet = match body.get(16..18) {
                Some([0, 16]) => Packet::P16,
                Some([0xaf, 0x1f]) => Packet::Af1f,
                Some([0, 28]) => Packet::P28,
                _ => return,
            };
            let table = match case {
                Case::Strict { .. } => &mut self.strict,
                Case::Gaps { .. } => &mut self.gaps,
                Case::Merge { .. } => &mut self.merges,
                Case::Plan { .. } => &mut self.plans,
                _ => &mut self.sweeps,
            };
            table[packet as usize][scheme.index()].count(answer);
            if model::is_clear(body) {
                self.clear[packet as usize][scheme.index()].count(answer);
            }
            if matches!((case, answer), (Case::Gaps { .. }, Answer::Gaps(_, marks)) if marks.contains(&1)) {
                self.with_gap[packet as usize] += 1;
            }
        }
    }

    fn count_refusal(&mut self, number: u32) {
        *self.refusals.entry(number).or_default() += 1;
    }

    /// Refusals and packets under schemes that did not occur.
    pub fn missing(&self) -> Vec<String> {
        let mut missing: Vec<String> =
            (1..).zip(NAMES).filter(|(n, name)| !name.is_empty() && !self.refusals.contains_key(n)).map(|(n, _)| format!("refusal {n}")).collect();
        for packet in Packet::ALL {
            for (scheme, name) in Scheme::NAMES.iter().enumerate() {
                let [split, gaps] = [self.sweeps, self.gaps].map(|table| table[packet as usize][scheme]);
                let fits = match packet {
                    Packet::P16 => scheme != 3,
                    Packet::Af1f => true,
                    Packet::P28 => scheme == 2 || scheme == 4,
                };
                if (fits && split.accepted == 0) || split.refused == 0 {
                    missing.push(format!("packet {} under {name}", packet.name()));
                }
                if packet != Packet::P28 && fits && self.clear[packet as usize][scheme].accepted == 0 {
                    missing.push(format!("a clear scan of packet {} under {name}", packet.name()));
                }
                if fits && self.merges[packet as usize][scheme].accepted == 0 {
                    missing.push(format!("merged readings of packet {} under {name}", packet.name()));
                }
                if fits && gaps.accepted == 0 {
                    missing.push(format!("a gap reading of packet {} under {name}", packet.name()));
                }
            }
            if self.plans[packet as usize][2].accepted == 0 {
                missing.push(format!("a plan of packet {}", packet.name()));
            }
            if self.strict[packet as usize].iter().all(|split| split.accepted == 0) {
                missing.push(format!("a body of packet {} for the archive", packet.name()));
            }
            if packet != Packet::P16 && self.with_gap[packet as usize] == 0 {
                missing.push(format!("a gap in packet {}", packet.name()));
            }
        }
        if self.exports.accepted == 0 {
            missing.push("an export".into());
        }
        missing
    }

    pub fn print(&self) {
        println!("by kind of case:");
        let kinds: Vec<String> = self.kinds.iter().map(|(k, n)| format!("{k} {n}")).collect();
        println!("  {}", kinds.join(", "));
        println!("by answer:");
        println!("  accepted {:>32}", self.accepted);
        for (number, count) in &self.refusals {
            let name = NAMES.get(*number as usize - 1).unwrap_or(&"(a bad argument)");
            println!("  {number:>3} {name:<27} {count:>9}");
        }
        print_table("sweeps by packet and scheme, accepted / refused:", &self.sweeps);
        print_table("gap readings by packet and scheme, accepted / refused:", &self.gaps);
        let [_, af1f, generic] = self.with_gap;
        println!("  with a gap: packet AF1F {af1f}, packet 28 {generic}");
        print_table("merged readings by packet and scheme, accepted / refused:", &self.merges);
        let [itself, merged, other] = self.merge_laws;
        println!("  held to another: a body and itself {itself}, receptions of one body that merge {merged}, with other codes {other}");
        print_table("field plans by packet and scheme, accepted / refused:", &self.plans);
        let [cut, moved, code] = self.plan_laws;
        println!("  held to another: a strip cut in two {cut}, a strip moved {moved}, another code in a cell {code}");
        let [alone, unscaled, merged] = self.totals_alone;
        println!("  the totals alone: {alone}, under refused scale fields {unscaled}, of merged pictures {merged}");
        let [larger, rates] = self.charge_laws;
        println!("charges held to another: a larger total {larger}, each rate altered {rates}");
        print_table("damaged bodies (demand 3), accepted / refused:", &self.damaged);
        print_table("readings of clear scans by packet and scheme, accepted / refused:", &self.clear);
        println!("  held to another with the same bytes that are read: {}", self.clear_alike);
        let (Split { accepted, refused }, [read, swept]) = (self.exports, self.export_laws);
        println!("exports, accepted / refused: {accepted} / {refused}; read again {read}, in sweep readings {swept}");
        println!("description records with the whole numbers of the file: {}", self.records);
        print_table("readings by the archive profile by packet and scheme, accepted / refused:", &self.strict);
        println!("  of what was exported: {}", self.strict_exports);
        let missing = self.missing();
        if !missing.is_empty() {
            println!("did not occur: {}", missing.join(", "));
        }
    }
}

fn print_table(title: &str, table: &[[Split; 5]; 3]) {
    println!("{title}");
    print!("  {:<6}", "packet");
    for name in Scheme::NAMES {
        print!(" {name:>19}");
    }
    println!();
    for packet in Packet::ALL {
        print!("  {:<6}", packet.name());
        for split in table[packet as usize] {
            print!(" {:>19}", format!("{} / {}", split.accepted, split.refused));
        }
        println!();
    }
}
