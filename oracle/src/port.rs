//! The port behind its C entries. Everything that knows how those entries take and give their numbers stands in this file
//! (and, turned round, in mirror.rs).
//!
//! A slice passes as a pointer and a length in elements. Every entry returns the refusal's number, 0 when it accepts.
//! `ints` has at least 24 places and `floats` at least 8, else the answer is 100 and nothing is written. On a refusal they
//! hold its whole numbers and its float, widened; on acceptance:
//!
//! | entry | ints | floats |
//! |---|---|---|
//! | l3_token, l3_message_header | 0 place | |
//! | l3_scan_time | 0 time | |
//! | l3_date | 0 year, 1 month, 2 day | |
//! | l3_field | 0 value | 0, 1 the pair |
//! | l3_pdb, l3_sweep, l3_strict, l3_gaps, l3_merge, l3_totals | 0 token's place (0 in l3_pdb), 1 product code, 2 vcp, 3 days, 4 seconds, 5 time (0 in l3_pdb); 16, 17 latitude and longitude in thousandths, 18 height in feet, 19 elevation in tenths; 20-23 0 | 0-3 latitude, longitude, height, elevation |
//! | l3_symbology, l3_sweep, l3_strict, l3_gaps, l3_merge, l3_totals | 6 packet (16, 44831 for AF1F, 28), 7 radials, 8 bins, 9 range scale or 0 | 4, 5 gate width, first gate or 0 |
//! | l3_sweep, l3_strict, l3_gaps, l3_merge, l3_totals | 10 whether a scale is declared, 11 level count, 12 floor | 6, 7 minimum, step |
//! | l3_totals | 14 the number of fields | |
//! | l3_plan_totals | 0 the number of totals; all else 0 | all 0 |
//! | l3_export16 | 0 the length of what was written | |
//! | l3_linear, l3_float | 11 level count | 6, 7 minimum, step |
//! | l3_precip | 12 floor, 13 ceiling or -1 | 6, 7 minimum, step |
//! | l3_xdr, l3_items | 0 value, or 0 start and 1 length; 15 the position after the read, also on a refusal (item 7: 0 the bytes left, no position) | 0 value |
//! | l3_read | 0 whether the number is there, 1 the number | |
//! | l3_charge | 0 charge, 1 remainder | |
//! | l3_product | 0 whether the code is known, 1 scheme, 2 moment, 3 unit, 4 gate length or 0 | 0 the scheme's parameter |
//! | l3_product | 5 whether there is an elevation; all else 0 | all else 0 |
use crate::fence::Fence;
use lines::{
    Answer, Case, Date, Each, FieldKind, Fields, Geometry, Item, Lent, Packet, Picture, Product, Refusal, Scale, Scheme,
    Sweep, BUFFERS, EACH, MOMENTS, UNITS,
};

macro_rules! entries {
    ($($field:ident: $name:ident($($argument:ident: $type:ty),* $(,)?);)*) => {
        /// The port's entries, or others that promise the same.
        #[derive(Clone, Copy)]
        pub struct Entries {
            $(pub $field: unsafe extern "C" fn($($type),*) -> u32,)*
        }

        #[cfg(port_at_hand)]
        extern "C" {
            $(fn $name($($argument: $type),*) -> u32;)*
        }

        /// The linked port, if it was there at build time.
        pub fn linked() -> Option<Entries> {
            #[cfg(port_at_hand)]
            return Some(Entries { $($field: $name,)* });
            #[cfg(not(port_at_hand))]
            return None;
        }
    };
}

entries! {
    sweep: l3_sweep(
        file: *const u8, file_len: usize, clock: u64, scheme: u32, parameter: f32, body: *const u8, body_len: usize,
        azimuths: *mut f64, azimuths_len: usize, codes: *mut u16, codes_len: usize, physical: *mut f32, physical_len: usize,
        ints: *mut i64, ints_len: usize, floats: *mut f64, floats_len: usize,
    );
    strict: l3_strict(
        file: *const u8, file_len: usize, clock: u64, scheme: u32, parameter: f32, body: *const u8, body_len: usize,
        azimuths: *mut f64, azimuths_len: usize, codes: *mut u16, codes_len: usize, physical: *mut f32, physical_len: usize,
        ints: *mut i64, ints_len: usize, floats: *mut f64, floats_len: usize,
    );
    gaps: l3_gaps(
        file: *const u8, file_len: usize, clock: u64, scheme: u32, parameter: f32, body: *const u8, body_len: usize,
        azimuths: *mut f64, azimuths_len: usize, codes: *mut u16, codes_len: usize, physical: *mut f32, physical_len: usize,
        marks: *mut u8, marks_len: usize, ints: *mut i64, ints_len: usize, floats: *mut f64, floats_len: usize,
    );
    merge: l3_merge(
        file: *const u8, file_len: usize, clock: u64, scheme: u32, parameter: f32, first: *const u8, first_len: usize,
        second: *const u8, second_len: usize,
        azimuths: *mut f64, azimuths_len: usize, codes: *mut u16, codes_len: usize, physical: *mut f32, physical_len: usize,
        marks: *mut u8, marks_len: usize, ints: *mut i64, ints_len: usize, floats: *mut f64, floats_len: usize,
    );
    totals: l3_totals(
        file: *const u8, file_len: usize, clock: u64, scheme: u32, parameter: f32, body: *const u8, body_len: usize,
        plan: *const u8, plan_len: usize,
        azimuths: *mut f64, azimuths_len: usize, codes: *mut u16, codes_len: usize, physical: *mut f32, physical_len: usize,
        totals: *mut u64, totals_len: usize, ints: *mut i64, ints_len: usize, floats: *mut f64, floats_len: usize,
    );
    plan_totals: l3_plan_totals(
        file: *const u8, file_len: usize, block: usize, codes: *const u16, codes_len: usize, radials: usize, bins: usize,
        plan: *const u8, plan_len: usize, totals: *mut u64, totals_len: usize,
        ints: *mut i64, ints_len: usize, floats: *mut f64, floats_len: usize,
    );
    symbology: l3_symbology(
        body: *const u8, body_len: usize, azimuths: *mut f64, azimuths_len: usize, codes: *mut u16, codes_len: usize,
        ints: *mut i64, ints_len: usize, floats: *mut f64, floats_len: usize,
    );
    export16: l3_export16(
        body: *const u8, body_len: usize, output: *mut u8, output_len: usize,
        ints: *mut i64, ints_len: usize, floats: *mut f64, floats_len: usize,
    );
    token: l3_token(file: *const u8, file_len: usize, ints: *mut i64, ints_len: usize, floats: *mut f64, floats_len: usize);
    message_header: l3_message_header(
        file: *const u8, file_len: usize, ints: *mut i64, ints_len: usize, floats: *mut f64, floats_len: usize,
    );
    scan_time: l3_scan_time(
        days: u16, seconds: i32, clock: u64, ints: *mut i64, ints_len: usize, floats: *mut f64, floats_len: usize,
    );
    date: l3_date(days: u16, ints: *mut i64, ints_len: usize, floats: *mut f64, floats_len: usize);
    field: l3_field(
        file: *const u8, file_len: usize, block: usize, index: usize, kind: u32,
        ints: *mut i64, ints_len: usize, floats: *mut f64, floats_len: usize,
    );
    pdb: l3_pdb(
        file: *const u8, file_len: usize, block: usize, ints: *mut i64, ints_len: usize, floats: *mut f64, floats_len: usize,
    );
    linear: l3_linear(
        file: *const u8, file_len: usize, block: usize, ints: *mut i64, ints_len: usize, floats: *mut f64, floats_len: usize,
    );
    float: l3_float(
        file: *const u8, file_len: usize, block: usize, ints: *mut i64, ints_len: usize, floats: *mut f64, floats_len: usize,
    );
    precip: l3_precip(
        file: *const u8, file_len: usize, block: usize, factor: f32,
        ints: *mut i64, ints_len: usize, floats: *mut f64, floats_len: usize,
    );
    threshold: l3_threshold(
        file: *const u8, file_len: usize, block: usize, data: *mut u8, data_len: usize,
        ints: *mut i64, ints_len: usize, floats: *mut f64, floats_len: usize,
    );
    legacy16: l3_legacy16(
        thresholds: *const u8, thresholds_len: usize, post_scale: f32, levels: *mut f32, levels_len: usize,
    );
    physical: l3_physical(
        file: *const u8, file_len: usize, block: usize, scheme: u32, parameter: f32, codes: *const u16, codes_len: usize,
        physical: *mut f32, physical_len: usize, ints: *mut i64, ints_len: usize, floats: *mut f64, floats_len: usize,
    );
    trailing: l3_trailing(
        bytes: *const u8, bytes_len: usize, ints: *mut i64, ints_len: usize, floats: *mut f64, floats_len: usize,
    );
    known: l3_known(code: i16);
    product: l3_product(code: i16, ints: *mut i64, ints_len: usize, floats: *mut f64, floats_len: usize);
    refusal_name: l3_refusal_name(number: u32, name: *mut u8, name_len: usize);
    version: l3_version();
    codes: l3_codes(codes: *mut u16, codes_len: usize);
    xdr: l3_xdr(
        op: u32, payload: *const u8, payload_len: usize, at: usize,
        ints: *mut i64, ints_len: usize, floats: *mut f64, floats_len: usize,
    );
    items: l3_items(
        item: u32, payload: *const u8, payload_len: usize,
        ints: *mut i64, ints_len: usize, floats: *mut f64, floats_len: usize,
    );
    charge: l3_charge(
        total: u64, ends: *const u64, ends_len: usize, rates: *const u32, rates_len: usize,
        ints: *mut i64, ints_len: usize, floats: *mut f64, floats_len: usize,
    );
    read: l3_read(
        kind: u32, bytes: *const u8, bytes_len: usize, offset: usize,
        ints: *mut i64, ints_len: usize, floats: *mut f64, floats_len: usize,
    );
}

pub const INTS: usize = 24;
pub const FLOATS: usize = 8;
/// The answer when `ints` or `floats` is too short.
pub const SHORT_REPORT: u32 = 100;
/// The answer when another argument is not one that the entry takes.
pub const BAD_ARGUMENT: u32 = 101;
/// The places that a refusal's name has.
pub const NAME: usize = 32;
/// How the packets are named in ints[6].
pub const PACKETS: [i64; 3] = [16, 44831, 28];
/// The items of `l3_xdr`, by number.
pub const OPS: &str = "iufsal";

/// The kinds of `l3_read`, by number.
pub const READS: [FieldKind; 3] = [FieldKind::U16, FieldKind::I16, FieldKind::I32];

/// Places past the end of what is lent, which nothing may write to.
const GUARD: usize = 8;

/// What goes in with a sweep's input: nothing more, or nothing more by the archive profile, as many marks, a second body and as many
/// marks, or a plan and as many totals.
#[derive(Clone, Copy)]
enum Beside<'a> {
    Nothing,
    NothingStrict,
    Marks(usize),
    Second(&'a [u8], usize),
    Plan(&'a [u8], usize),
}

/// As many totals as there are field numbers.
const MOST_TOTALS: usize = 65_536;

/// More bytes than any export has: of each radial seven beside its cells.
const MOST_OUTPUT: usize = 30 + 65_535 * 7 + 4_000_000;

/// The number of a clock that no u64 holds: it is out of range either way.
fn u64_clock(clock: i128) -> u64 {
    u64::try_from(clock).unwrap_or(u64::MAX)
}

/// A buffer to lend: filled with a pattern first, and looked at afterwards.
struct Buffer<T> {
    pattern: Vec<T>,
    memory: Vec<T>,
    /// Places that are lent, without the guard.
    lent: usize,
}

impl<T: Copy + PartialEq> Buffer<T> {
    fn new() -> Buffer<T> {
        Buffer { pattern: vec![], memory: vec![], lent: 0 }
    }

    fn lend(&mut self, len: usize, pattern: impl Fn(usize) -> T) -> *mut T {
        let all = len + GUARD;
        while self.pattern.len() < all {
            self.pattern.push(pattern(self.pattern.len()));
        }
        if self.memory.len() < all {
            self.memory = self.pattern[..all].to_vec();
        }
        self.memory[..all].copy_from_slice(&self.pattern[..all]);
        self.lent = len;
        self.memory.as_mut_ptr()
    }

    /// The first place from `from` on that does not hold what it held before.
    fn touched(&self, from: usize) -> Option<usize> {
        let all = self.lent + GUARD;
        let (now, before) = (&self.memory[from..all], &self.pattern[from..all]);
        if now == before {
            None
        } else {
            now.iter().zip(before).position(|(a, b)| a != b).map(|i| from + i)
        }
    }
}

/// What one call gave.
pub struct Outcome {
    pub answer: Answer,
    /// The place of the token, where the entry gives one.
    pub place: Option<usize>,
    /// The whole numbers of a description record, where the entry gives one: `model::raw_fields`.
    pub raw: Option<[i64; 4]>,
    /// A promise that the call broke beside its answer, such as a kept place that was written.
    pub fault: Option<String>,
}

pub struct Port {
    entries: Entries,
    file: Fence,
    body: Fence,
    plan: Fence,
    azimuths: Buffer<u64>,
    codes: Buffer<u16>,
    physical: Buffer<u32>,
    marks: Buffer<u8>,
    totals: Buffer<u64>,
    output: Buffer<u8>,
    ints: [i64; INTS + GUARD],
    floats: [f64; FLOATS + GUARD],
    fault: Option<String>,
    place: Option<usize>,
    raw: Option<[i64; 4]>,
}

impl Port {
    pub fn new(entries: Entries) -> Port {
        Port {
            entries,
            file: Fence::default(),
            body: Fence::default(),
            plan: Fence::default(),
            azimuths: Buffer::new(),
            codes: Buffer::new(),
            physical: Buffer::new(),
            marks: Buffer::new(),
            totals: Buffer::new(),
            output: Buffer::new(),
            ints: [0; INTS + GUARD],
            floats: [0.0; FLOATS + GUARD],
            fault: None,
            place: None,
            raw: None,
        }
    }

    /// The port's answer to a case. `lent` is what `sym` lends; a sweep's case says itself what it lends.
    pub fn run(&mut self, case: &Case, lent: Lent) -> Outcome {
        (self.fault, self.place, self.raw) = (None, None, None);
        let answer = match case {
            Case::Sweep { clock, scheme, lent, file, body } => {
                self.sweep(*clock, *scheme, (*lent, Beside::Nothing), file, body)
            }
            Case::Strict { clock, scheme, lent, file, body } => {
                self.sweep(*clock, *scheme, (*lent, Beside::NothingStrict), file, body)
            }
            Case::Gaps { clock, scheme, lent, marks, file, body } => {
                self.sweep(*clock, *scheme, (*lent, Beside::Marks(*marks)), file, body)
            }
            Case::Merge { clock, scheme, lent, marks, file, body, second } => {
                self.sweep(*clock, *scheme, (*lent, Beside::Second(second, *marks)), file, body)
            }
            Case::Plan { clock, scheme, lent, totals, file, body, plan } => {
                self.sweep(*clock, *scheme, (*lent, Beside::Plan(plan, *totals)), file, body)
            }
            Case::Sym { body } => self.symbology(body, lent),
            Case::Export { out, body } => self.export(*out, body),
            Case::Token { file } => self.token(file),
            Case::Mhb { file } => self.message_header(file),
            Case::Time { clock, days, seconds } => {
                let (entry, clock) = (self.entries.scan_time, u64_clock(*clock));
                self.small(
                    &[],
                    |_, _, i, fl| unsafe { entry(*days, *seconds, clock, i, INTS, fl, FLOATS) },
                    |p| Answer::Number(p.ints[0].into()),
                )
            }
            Case::Date { days } => {
                let entry = self.entries.date;
                self.small(
                    &[],
                    |_, _, i, fl| unsafe { entry(*days, i, INTS, fl, FLOATS) },
                    |p| Answer::Date(Date { year: p.whole(0), month: p.whole(1), day: p.whole(2) }),
                )
            }
            Case::Field { file, block, index, kind } => self.field(file, *block, *index, *kind),
            Case::Pdb { file, block } => {
                let entry = self.entries.pdb;
                self.small(
                    file,
                    |f, n, i, fl| unsafe { entry(f, n, *block, i, INTS, fl, FLOATS) },
                    |p| {
                        p.zero_ints(&[0, 5]);
                        Answer::Fields(p.fields())
                    },
                )
            }
            Case::Lin { file, block } => self.scaling(file, *block, self.entries.linear),
            Case::Flt { file, block } => self.scaling(file, *block, self.entries.float),
            Case::Prc { file, block, factor } => self.precip(file, *block, *factor),
            Case::Thr { file, block } => self.thresholds(file, *block),
            Case::Leg { thresholds, post_scale } => self.levels(thresholds, *post_scale),
            Case::Trail { bytes } => {
                let entry = self.entries.trailing;
                self.small(bytes, |b, n, i, fl| unsafe { entry(b, n, i, INTS, fl, FLOATS) }, |_| Answer::Accepted)
            }
            Case::Known { code } => Answer::Number(unsafe { (self.entries.known)(*code) }.into()),
            Case::Product { code } => {
                let entry = self.entries.product;
                self.small(&[], |_, _, i, fl| unsafe { entry(*code, i, INTS, fl, FLOATS) }, Port::product)
            }
            Case::Name { number, places } => self.name(*number, *places),
            Case::Codes => self.codes(),
            Case::Xdr { ops, payload } => self.xdr(ops, payload),
            Case::Each { payload } => self.each(payload),
            Case::Read { bytes, offset, kind } => self.read(bytes, *offset, *kind),
            Case::Charge { total, ends, rates } => self.charge(*total, ends, rates),
        };
        Outcome { answer, place: self.place.take(), raw: self.raw.take(), fault: self.fault.take() }
    }

    /// One item read at a position: the item or the refusal, and the position after it.
    pub fn xdr_at(&mut self, op: char, payload: &[u8], at: usize) -> (Result<Item, Refusal>, usize) {
        let pointer = self.file.place(payload);
        let number = OPS.find(op).expect("an XDR item") as u32;
        self.prepare();
        let (ints, floats) = (self.ints.as_mut_ptr(), self.floats.as_mut_ptr());
        let refused = unsafe { (self.entries.xdr)(number, pointer, payload.len(), at, ints, INTS, floats, FLOATS) };
        self.check_report();
        let position = self.ints[15] as usize;
        if refused != 0 {
            return (Err(self.refusal(refused)), position);
        }
        (Ok(self.item(op, payload, at)), position)
    }

    /// The item that the report holds, which was read at a position.
    fn item(&mut self, op: char, payload: &[u8], at: usize) -> Item {
        match op {
            'i' => Item::Int(self.whole(0)),
            'u' => Item::Uint(self.whole(0)),
            'f' => Item::Float(self.narrow(0)),
            's' => Item::Text(Some(self.text(payload, at).to_vec())),
            'a' => Item::Array(self.part(payload, 4).chunks(4).map(|w| i32::from_be_bytes(w.try_into().unwrap())).collect()),
            'h' => Item::List(self.whole(0)),
            // the entry gives nothing: the number of elements is the count that stands at the position
            _ => {
                let count = payload.get(at..).and_then(|p| p.get(..4)).map(|w| i32::from_be_bytes(w.try_into().unwrap()));
                Item::List(count.unwrap_or(0).max(0) as usize)
            }
        }
    }

    pub fn version(&self) -> u32 {
        unsafe { (self.entries.version)() }
    }

    /// The place of the description block in a file that has one.
    pub fn block(&mut self, file: &[u8]) -> usize {
        let Answer::Number(header) = self.message_header(file) else {
            self.found("no message header is found".into());
            return 0;
        };
        header as usize + 18
    }

    /// The values of codes by the block at a place, for a buffer of `lent` places.
    pub fn values(
        &mut self,
        file: &[u8],
        block: usize,
        scheme: Scheme,
        codes: &[u16],
        lent: usize,
    ) -> Result<Vec<f32>, Refusal> {
        self.lend(Lent { azimuths: 0, codes: 0, physical: lent });
        let scheme = (scheme.index() as u32, scheme.parameter());
        let refused = self.call_physical(file, block, scheme, codes, (INTS, FLOATS));
        self.check_report();
        let written = if refused == 0 { codes.len().min(lent) } else { 0 };
        self.check_kept([0, 0, written, 0, 0, 0]);
        if refused != 0 {
            return Err(self.refusal(refused));
        }
        Ok(self.physical.memory[..written].iter().map(|b| f32::from_bits(*b)).collect())
    }

    /// The totals of a plan over the codes of a picture of so many radials and bins, for a buffer of `lent` places.
    pub fn plan_totals(
        &mut self,
        (file, block): (&[u8], usize),
        (codes, radials, bins): (&[u16], usize, usize),
        plan: &[u8],
        lent: usize,
    ) -> Result<Vec<u64>, Refusal> {
        self.lend(Lent { azimuths: 0, codes: 0, physical: 0 });
        self.totals.lend(lent.min(MOST_TOTALS), pattern64);
        let refused = self.call_plan_totals((file, block), (codes, radials, bins), plan, (INTS, FLOATS));
        self.check_report();
        if refused != 0 {
            self.check_kept([0; 6]);
            return Err(self.refusal(refused));
        }
        let others: Vec<usize> = (1..INTS).collect();
        self.zero_ints(&others);
        if self.floats[..FLOATS].iter().any(|x| x.to_bits() != 0) {
            self.found(format!("floats are {:?}", &self.floats[..FLOATS]));
        }
        let written: usize = self.whole(0);
        if written > self.totals.lent {
            self.found(format!("accepted {written} totals with {} places lent for them", self.totals.lent));
            return Ok(vec![]);
        }
        self.check_kept([0, 0, 0, 0, written, 0]);
        Ok(self.totals.memory[..written].to_vec())
    }

    /// The levels of the thresholds of the block at a place.
    pub fn levels_at(&mut self, file: &[u8], block: usize, post_scale: f32) -> Answer {
        match self.thresholds(file, block) {
            Answer::Thresholds(thresholds) => self.levels(&thresholds, post_scale),
            refused => refused,
        }
    }

    /// The fault of the last `xdr_at`, `values`, `plan_totals` or `levels_at`.
    pub fn take_fault(&mut self) -> Option<String> {
        self.fault.take()
    }

    /// What the entries answer when they are lent too little to report in, or an argument that they do not take.
    /// Each line is what was asked and whether the answer was the promised one.
    pub fn boundary(&mut self) -> Vec<(String, bool)> {
        let mut asked = vec![];
        for (ints, floats) in [(INTS - 1, FLOATS), (INTS, FLOATS - 1), (0, 0)] {
            for (name, number) in self.short_reports(ints, floats) {
                let untouched = self.report_untouched() && self.buffers_untouched();
                asked.push((format!("{name} with {ints} ints and {floats} floats"), number == SHORT_REPORT && untouched));
            }
        }
        self.prepare();
        let bytes = self.file.place(b"N0BLOT");
        let (ints, floats) = (self.ints.as_mut_ptr(), self.floats.as_mut_ptr());
        let number = unsafe { (self.entries.token)(bytes, 6, ints, INTS + 4, floats, FLOATS + 4) };
        asked.push((format!("l3_token with more than {INTS} ints and {FLOATS} floats"), number == 0 && self.ints[0] == 0));
        for scheme in [5, 6, 255, u32::MAX] {
            self.lend(Lent { azimuths: 4, codes: 4, physical: 4 });
            for (name, beside) in SWEEPS {
                let number = self.call_sweep(beside, &[], (0, scheme, 0.0), &[], (INTS, FLOATS));
                asked.push((format!("{name} with scheme {scheme}"), number == BAD_ARGUMENT && self.buffers_untouched()));
            }
            let number = self.call_physical(&[], 0, (scheme, 0.0), &[1, 2], (INTS, FLOATS));
            let untouched = self.report_untouched() && self.buffers_untouched();
            asked.push((format!("l3_physical with scheme {scheme}"), number == BAD_ARGUMENT && untouched));
        }
        let bytes = self.file.place(b"N0BLOT");
        for number in [8, 9, 255, u32::MAX] {
            self.prepare();
            let (ints, floats) = (self.ints.as_mut_ptr(), self.floats.as_mut_ptr());
            let items = unsafe { (self.entries.items)(number, bytes, 6, ints, INTS, floats, FLOATS) };
            let read = unsafe { (self.entries.read)(number - 5, bytes, 6, 0, ints, INTS, floats, FLOATS) };
            let refused = items == BAD_ARGUMENT && read == BAD_ARGUMENT;
            asked.push((
                format!("l3_items with item {number}, l3_read with kind {}", number - 5),
                refused && self.report_untouched(),
            ));
        }
        for (bytes, levels) in [(31, 16), (33, 16), (0, 16), (32, 15), (32, 17), (32, 0)] {
            let pointer = self.file.place(&vec![1; bytes]);
            let out = self.physical.lend(levels, pattern32) as *mut f32;
            let number = unsafe { (self.entries.legacy16)(pointer, bytes, 1.0, out, levels) };
            let kept = self.physical.touched(0).is_none();
            asked.push((format!("l3_legacy16 with {bytes} bytes and {levels} levels"), number == BAD_ARGUMENT && kept));
        }
        for len in [0, 1, 25] {
            let out = self.codes.lend(len, pattern16);
            let number = unsafe { (self.entries.codes)(out, len) };
            asked.push((format!("l3_codes with {len} places"), number == BAD_ARGUMENT && self.codes.touched(0).is_none()));
        }
        asked
    }

    fn short_reports(&mut self, ints: usize, floats: usize) -> Vec<(&'static str, u32)> {
        let e = self.entries;
        self.lend(Lent { azimuths: 4, codes: 4, physical: 4 });
        let sweeps = SWEEPS.map(|(name, beside)| (name, self.call_sweep(beside, &[], (0, 4, 0.0), &[], (ints, floats))));
        let symbology = self.call_symbology(&[], (ints, floats));
        self.output.lend(30, pattern8);
        let export = self.call_export(&CLEAR, (ints, floats));
        let physical = self.call_physical(&[], 0, (4, 0.0), &[1, 2], (ints, floats));
        let plan_totals = self.call_plan_totals((&[], 0), (&[], 0, 0), &[], (ints, floats));
        let (i, f) = (self.ints.as_mut_ptr(), self.floats.as_mut_ptr());
        let bytes = self.file.place(b"N0BLOT");
        let mut data = [0u8; 32];
        let others = unsafe {
            [
                ("l3_symbology", symbology),
                ("l3_export16", export),
                ("l3_physical", physical),
                ("l3_plan_totals", plan_totals),
                ("l3_token", (e.token)(bytes, 6, i, ints, f, floats)),
                ("l3_message_header", (e.message_header)(bytes, 6, i, ints, f, floats)),
                ("l3_scan_time", (e.scan_time)(1, 0, 0, i, ints, f, floats)),
                ("l3_date", (e.date)(1, i, ints, f, floats)),
                ("l3_field", (e.field)(bytes, 6, 0, 1, 0, i, ints, f, floats)),
                ("l3_pdb", (e.pdb)(bytes, 6, 0, i, ints, f, floats)),
                ("l3_linear", (e.linear)(bytes, 6, 0, i, ints, f, floats)),
                ("l3_float", (e.float)(bytes, 6, 0, i, ints, f, floats)),
                ("l3_precip", (e.precip)(bytes, 6, 0, 1.0, i, ints, f, floats)),
                ("l3_threshold", (e.threshold)(bytes, 6, 0, data.as_mut_ptr(), 32, i, ints, f, floats)),
                ("l3_trailing", (e.trailing)(bytes, 6, i, ints, f, floats)),
                ("l3_xdr", (e.xdr)(0, bytes, 6, 0, i, ints, f, floats)),
                ("l3_items", (e.items)(0, bytes, 6, i, ints, f, floats)),
                ("l3_read", (e.read)(0, bytes, 6, 0, i, ints, f, floats)),
                ("l3_product", (e.product)(94, i, ints, f, floats)),
                ("l3_charge", (e.charge)(7, [1 << 40].as_ptr(), 1, [5].as_ptr(), 1, i, ints, f, floats)),
            ]
        };
        [&sweeps[..], &others].concat()
    }

    /// The sweep reading, that by the archive profile, with marks the gap reading, with a second body both merged, with a plan that of
    /// its totals.
    fn sweep(&mut self, clock: i128, scheme: Scheme, lent: (Lent, Beside), file: &[u8], body: &[u8]) -> Answer {
        let (lent, beside) = lent;
        self.lend(lent);
        match beside {
            Beside::Nothing | Beside::NothingStrict => {}
            Beside::Marks(marks) | Beside::Second(_, marks) => {
                self.marks.lend(marks.min(Lent::MOST.azimuths), pattern8);
            }
            Beside::Plan(_, totals) => {
                self.totals.lend(totals.min(MOST_TOTALS), pattern64);
            }
        }
        let by = (u64_clock(clock), scheme.index() as u32, scheme.parameter());
        let refused = self.call_sweep(beside, file, by, body, (INTS, FLOATS));
        self.check_report();
        if refused != 0 {
            self.check_kept([0; 6]);
            return Answer::Refused(self.refusal(refused));
        }
        let Some(picture) = self.picture() else { return Answer::Accepted };
        let cells = picture.radials * picture.bins;
        if cells > self.physical.lent {
            self.found(format!("accepted {cells} cells with {} places lent for physical values", self.physical.lent));
            return Answer::Accepted;
        }
        let marked = if matches!(beside, Beside::Marks(_) | Beside::Second(..)) { picture.radials } else { 0 };
        let totalled = if matches!(beside, Beside::Plan(..)) { self.whole(14) } else { 0 };
        let lent = [self.marks.lent, self.totals.lent];
        if marked > lent[0] || totalled > lent[1] {
            self.found(format!("accepted {marked} marks and {totalled} totals with {lent:?} places lent"));
            return Answer::Accepted;
        }
        self.check_kept([picture.radials, cells, cells, marked, totalled, 0]);
        let physical = self.physical.memory[..cells].iter().map(|b| f32::from_bits(*b)).collect();
        let scale = match self.ints[10] {
            0 => None,
            1 => {
                Some(Scale { minimum: self.narrow(6), step: self.narrow(7), levels: self.whole(11), floor: self.whole(12) })
            }
            other => {
                self.found(format!("ints[10] is {other}"));
                None
            }
        };
        let (token, fields, time) = (self.token_at(file), self.fields(), self.ints[5]);
        let sweep = Box::new(Sweep { token, fields, time, scale, picture, physical });
        match beside {
            Beside::Nothing | Beside::NothingStrict => Answer::Sweep(sweep),
            Beside::Marks(_) | Beside::Second(..) => Answer::Gaps(sweep, self.marks.memory[..marked].to_vec()),
            Beside::Plan(..) => Answer::Totals(sweep, self.totals.memory[..totalled].to_vec()),
        }
    }

    fn symbology(&mut self, body: &[u8], lent: Lent) -> Answer {
        self.lend(Lent { physical: 0, ..lent });
        let refused = self.call_symbology(body, (INTS, FLOATS));
        self.check_report();
        if refused != 0 {
            self.check_kept([0; 6]);
            return Answer::Refused(self.refusal(refused));
        }
        let Some(picture) = self.picture() else { return Answer::Accepted };
        self.check_kept([picture.radials, picture.radials * picture.bins, 0, 0, 0, 0]);
        Answer::Picture(Box::new(picture))
    }

    fn export(&mut self, out: usize, body: &[u8]) -> Answer {
        self.lend(Lent { azimuths: 0, codes: 0, physical: 0 });
        self.output.lend(out.min(MOST_OUTPUT), pattern8);
        let refused = self.call_export(body, (INTS, FLOATS));
        self.check_report();
        if refused != 0 {
            self.check_kept([0; 6]);
            return Answer::Refused(self.refusal(refused));
        }
        let written: usize = self.whole(0);
        if written > self.output.lent {
            self.found(format!("accepted {written} bytes with {} places lent for them", self.output.lent));
            return Answer::Accepted;
        }
        self.check_kept([0, 0, 0, 0, 0, written]);
        Answer::Written(self.output.memory[..written].to_vec())
    }

    fn token(&mut self, file: &[u8]) -> Answer {
        let entry = self.entries.token;
        self.small(file, |f, n, i, fl| unsafe { entry(f, n, i, INTS, fl, FLOATS) }, |p| Answer::Token(p.token_at(file)))
    }

    fn message_header(&mut self, file: &[u8]) -> Answer {
        let entry = self.entries.message_header;
        self.small(file, |f, n, i, fl| unsafe { entry(f, n, i, INTS, fl, FLOATS) }, |p| Answer::Number(p.ints[0].into()))
    }

    fn field(&mut self, file: &[u8], block: usize, index: usize, kind: FieldKind) -> Answer {
        let entry = self.entries.field;
        self.small(
            file,
            |f, n, i, fl| unsafe { entry(f, n, block, index, kind as u32, i, INTS, fl, FLOATS) },
            |p| match kind {
                FieldKind::Pair => Answer::Pair(p.narrow(0), p.narrow(1)),
                _ => Answer::Number(p.ints[0].into()),
            },
        )
    }

    #[allow(clippy::type_complexity)]
    fn scaling(
        &mut self,
        file: &[u8],
        block: usize,
        entry: unsafe extern "C" fn(*const u8, usize, usize, *mut i64, usize, *mut f64, usize) -> u32,
    ) -> Answer {
        self.small(
            file,
            |f, n, i, fl| unsafe { entry(f, n, block, i, INTS, fl, FLOATS) },
            |p| Answer::Scaling { minimum: p.narrow(6), step: p.narrow(7), levels: p.whole(11) },
        )
    }

    fn precip(&mut self, file: &[u8], block: usize, factor: f32) -> Answer {
        let entry = self.entries.precip;
        self.small(
            file,
            |f, n, i, fl| unsafe { entry(f, n, block, factor, i, INTS, fl, FLOATS) },
            |p| Answer::Precip {
                minimum: p.narrow(6),
                step: p.narrow(7),
                floor: p.whole(12),
                ceiling: if p.ints[13] == -1 { None } else { Some(p.whole(13)) },
            },
        )
    }

    fn thresholds(&mut self, file: &[u8], block: usize) -> Answer {
        const KEPT: u8 = 0xa5;
        let entry = self.entries.threshold;
        let mut data = [KEPT; 32 + GUARD];
        let answer = self.small(
            file,
            |f, n, i, fl| unsafe { entry(f, n, block, data.as_mut_ptr(), 32, i, INTS, fl, FLOATS) },
            |_| Answer::Accepted,
        );
        let written = if matches!(answer, Answer::Accepted) { 32 } else { 0 };
        if let Some(at) = data[written..].iter().position(|b| *b != KEPT) {
            self.found(format!("byte {} of the threshold buffer was written", written + at));
        }
        match answer {
            Answer::Accepted => Answer::Thresholds(data[..32].try_into().unwrap()),
            refused => refused,
        }
    }

    fn levels(&mut self, thresholds: &[u8; 32], post_scale: f32) -> Answer {
        let pointer = self.file.place(thresholds);
        let out = self.physical.lend(16, pattern32) as *mut f32;
        let refused = unsafe { (self.entries.legacy16)(pointer, 32, post_scale, out, 16) };
        if refused != 0 {
            return Answer::Refused(self.refusal(refused));
        }
        if let Some(at) = self.physical.touched(16) {
            self.found(format!("place {at} past the levels was written"));
        }
        Answer::Levels(std::array::from_fn(|k| f32::from_bits(self.physical.memory[k])))
    }

    fn codes(&mut self) -> Answer {
        let out = self.codes.lend(30, pattern16);
        let refused = unsafe { (self.entries.codes)(out, 30) };
        if refused != 0 {
            return Answer::Refused(self.refusal(refused));
        }
        if let Some(at) = self.codes.touched(26) {
            self.found(format!("place {at} past the codes was written"));
        }
        Answer::Codes(self.codes.memory[..26].to_vec())
    }

    /// The product that the report holds. Of a code that is not known it holds zeros alone.
    fn product(&mut self) -> Answer {
        let [known, scheme, moment, unit, elevation] = [0, 1, 2, 3, 5].map(|at| self.whole::<usize>(at));
        let (gate, parameter) = (self.whole(4), self.narrow(0));
        let (Some(scheme), Some(moment), Some(unit), 0..=1, 0..=1) =
            (Scheme::of(scheme, parameter), MOMENTS.get(moment), UNITS.get(unit), known, elevation)
        else {
            self.found(format!("ints[0] to [5] are {:?}", &self.ints[..6]));
            return Answer::Accepted;
        };
        let places: Vec<usize> = (6 * known..INTS).collect();
        self.zero_ints(&places);
        let zeros = self.floats[1..FLOATS].iter().all(|x| x.to_bits() == 0);
        if !zeros || scheme.parameter().to_bits() != parameter.to_bits() {
            self.found(format!("floats are {:?} under scheme {}", &self.floats[..FLOATS], scheme.index()));
        }
        let gate = (gate != 0).then_some(gate);
        Answer::Product((known == 1).then_some(Product { scheme, moment, unit, gate, elevation: elevation == 1 }))
    }

    /// A name and the zeros behind it, or 101.
    fn name(&mut self, number: u32, places: usize) -> Answer {
        let places = places.min(MOST_OUTPUT);
        let out = self.output.lend(places, pattern8);
        let refused = unsafe { (self.entries.refusal_name)(number, out, places) };
        let written = if refused == 0 { NAME } else { 0 };
        if written > places {
            self.found(format!("accepted a name with {places} places lent for it"));
            return Answer::Accepted;
        }
        if let Some(at) = self.output.touched(written) {
            self.found(format!("place {at} of the name's buffer, which must be kept, was written"));
        }
        if refused != 0 {
            return Answer::Refused(self.refusal(refused));
        }
        let name = &self.output.memory[..NAME];
        let len = name.iter().rposition(|b| *b != 0).map_or(0, |i| i + 1);
        Answer::Name(name[..len].to_vec())
    }

    fn xdr(&mut self, ops: &str, payload: &[u8]) -> Answer {
        let (mut items, mut refusal, mut position) = (vec![], None, 0);
        for op in ops.chars() {
            let (item, after) = self.xdr_at(op, payload, position);
            position = after;
            match item {
                Ok(Item::Text(Some(s))) if !s.is_ascii() => items.push(Item::Text(None)),
                Ok(item) => items.push(item),
                Err(r) => {
                    refusal = Some(r);
                    break;
                }
            }
        }
        Answer::Xdr { items, refusal, position }
    }

    /// The call for each item reads all of them with a cursor of its own.
    fn each(&mut self, payload: &[u8]) -> Answer {
        let (mut reads, mut at) = (vec![], 0);
        for (number, op) in EACH.chars().enumerate() {
            let refused = self.call_items(number, payload);
            let position = self.ints[15] as usize;
            let item = match refused {
                0 => Ok(match self.item(op, payload, at) {
                    Item::Text(Some(s)) if !s.is_ascii() => Item::Text(None),
                    item => item,
                }),
                _ => Err(self.refusal(refused)),
            };
            reads.push(Each { item, position });
            at = position;
        }
        let refused = self.call_items(EACH.len(), payload);
        self.zero_ints(&[15]);
        if refused != 0 {
            self.found(format!("{refused} for the number of bytes left"));
        }
        Answer::Each { reads, left: self.whole(0) }
    }

    fn call_items(&mut self, number: usize, payload: &[u8]) -> u32 {
        let pointer = self.file.place(payload);
        self.prepare();
        let (ints, floats) = (self.ints.as_mut_ptr(), self.floats.as_mut_ptr());
        let refused = unsafe { (self.entries.items)(number as u32, pointer, payload.len(), ints, INTS, floats, FLOATS) };
        self.check_report();
        refused
    }

    fn read(&mut self, bytes: &[u8], offset: usize, kind: FieldKind) -> Answer {
        let number = READS.iter().position(|k| *k == kind).expect("a number") as u32;
        let entry = self.entries.read;
        self.small(
            bytes,
            |b, n, i, fl| unsafe { entry(number, b, n, offset, i, INTS, fl, FLOATS) },
            |p| match p.ints[0] {
                0 => {
                    p.zero_ints(&[1]);
                    Answer::Nothing
                }
                1 => Answer::Number(p.ints[1].into()),
                other => {
                    p.found(format!("ints[0] is {other}"));
                    Answer::Accepted
                }
            },
        )
    }

    fn charge(&mut self, total: u64, ends: &[u64], rates: &[u32]) -> Answer {
        let end_bytes: Vec<u8> = ends.iter().flat_map(|n| n.to_ne_bytes()).collect();
        let rate_bytes: Vec<u8> = rates.iter().flat_map(|n| n.to_ne_bytes()).collect();
        let rates_at = self.body.place(&rate_bytes) as *const u32;
        let entry = self.entries.charge;
        self.small(
            &end_bytes,
            |ends_at, _, i, fl| unsafe {
                entry(total, ends_at as *const u64, ends.len(), rates_at, rates.len(), i, INTS, fl, FLOATS)
            },
            |p| Answer::Charge { charge: p.whole(0), remainder: p.whole(1) },
        )
    }

    /// A call that lends no buffer but the report.
    fn small(
        &mut self,
        bytes: &[u8],
        call: impl FnOnce(*const u8, usize, *mut i64, *mut f64) -> u32,
        accepted: impl FnOnce(&mut Port) -> Answer,
    ) -> Answer {
        let pointer = self.file.place(bytes);
        self.prepare();
        let refused = call(pointer, bytes.len(), self.ints.as_mut_ptr(), self.floats.as_mut_ptr());
        self.check_report();
        if refused != 0 {
            return Answer::Refused(self.refusal(refused));
        }
        accepted(self)
    }

    /// A reading of a sweep by a clock, a scheme and its parameter.
    fn call_sweep(&mut self, beside: Beside, file: &[u8], by: (u64, u32, f32), body: &[u8], report: (usize, usize)) -> u32 {
        let (file_at, body_at) = (self.file.place(file), self.body.place(body));
        macro_rules! call {
            ($entry:ident($($plan:expr),*; $($lent:ident)?)) => {
                (self.entries.$entry)(
                    file_at,
                    file.len(),
                    by.0,
                    by.1,
                    by.2,
                    body_at,
                    body.len(),
                    $($plan,)*
                    self.azimuths.memory.as_mut_ptr() as *mut f64,
                    self.azimuths.lent,
                    self.codes.memory.as_mut_ptr(),
                    self.codes.lent,
                    self.physical.memory.as_mut_ptr() as *mut f32,
                    self.physical.lent,
                    $(self.$lent.memory.as_mut_ptr(), self.$lent.lent,)?
                    self.ints.as_mut_ptr(),
                    report.0,
                    self.floats.as_mut_ptr(),
                    report.1,
                )
            };
        }
        unsafe {
            match beside {
                Beside::Nothing => call!(sweep(;)),
                Beside::NothingStrict => call!(strict(;)),
                Beside::Marks(_) => call!(gaps(; marks)),
                Beside::Second(second, _) => {
                    let second_at = self.plan.place(second);
                    call!(merge(second_at, second.len(); marks))
                }
                Beside::Plan(plan, _) => {
                    let plan_at = self.plan.place(plan);
                    call!(totals(plan_at, plan.len(); totals))
                }
            }
        }
    }

    fn call_symbology(&mut self, body: &[u8], report: (usize, usize)) -> u32 {
        let body_at = self.body.place(body);
        unsafe {
            (self.entries.symbology)(
                body_at,
                body.len(),
                self.azimuths.memory.as_mut_ptr() as *mut f64,
                self.azimuths.lent,
                self.codes.memory.as_mut_ptr(),
                self.codes.lent,
                self.ints.as_mut_ptr(),
                report.0,
                self.floats.as_mut_ptr(),
                report.1,
            )
        }
    }

    fn call_export(&mut self, body: &[u8], report: (usize, usize)) -> u32 {
        let body_at = self.body.place(body);
        unsafe {
            (self.entries.export16)(
                body_at,
                body.len(),
                self.output.memory.as_mut_ptr(),
                self.output.lent,
                self.ints.as_mut_ptr(),
                report.0,
                self.floats.as_mut_ptr(),
                report.1,
            )
        }
    }

    /// The codes are an input: they end at the fence too.
    fn call_physical(
        &mut self,
        file: &[u8],
        block: usize,
        scheme: (u32, f32),
        codes: &[u16],
        report: (usize, usize),
    ) -> u32 {
        let bytes: Vec<u8> = codes.iter().flat_map(|c| c.to_ne_bytes()).collect();
        let (file_at, codes_at) = (self.file.place(file), self.body.place(&bytes));
        unsafe {
            (self.entries.physical)(
                file_at,
                file.len(),
                block,
                scheme.0,
                scheme.1,
                codes_at as *const u16,
                codes.len(),
                self.physical.memory.as_mut_ptr() as *mut f32,
                self.physical.lent,
                self.ints.as_mut_ptr(),
                report.0,
                self.floats.as_mut_ptr(),
                report.1,
            )
        }
    }

    fn call_plan_totals(
        &mut self,
        (file, block): (&[u8], usize),
        (codes, radials, bins): (&[u16], usize, usize),
        plan: &[u8],
        report: (usize, usize),
    ) -> u32 {
        let bytes: Vec<u8> = codes.iter().flat_map(|c| c.to_ne_bytes()).collect();
        let (file_at, codes_at, plan_at) = (self.file.place(file), self.body.place(&bytes), self.plan.place(plan));
        unsafe {
            (self.entries.plan_totals)(
                file_at,
                file.len(),
                block,
                codes_at as *const u16,
                codes.len(),
                radials,
                bins,
                plan_at,
                plan.len(),
                self.totals.memory.as_mut_ptr(),
                self.totals.lent,
                self.ints.as_mut_ptr(),
                report.0,
                self.floats.as_mut_ptr(),
                report.1,
            )
        }
    }

    /// Lends no more places than any accepted sweep has, whatever a case line asks for.
    fn lend(&mut self, lent: Lent) {
        let lent = lent.capped();
        self.azimuths.lend(lent.azimuths, pattern64);
        self.codes.lend(lent.codes, pattern16);
        self.physical.lend(lent.physical, pattern32);
        self.marks.lend(0, pattern8);
        self.totals.lend(0, pattern64);
        self.output.lend(0, pattern8);
        self.prepare();
    }

    fn prepare(&mut self) {
        self.ints = KEPT_INTS;
        self.floats = KEPT_FLOATS;
    }

    fn found(&mut self, fault: String) {
        self.fault.get_or_insert(fault);
    }

    fn check_report(&mut self) {
        if self.ints[INTS..] != KEPT_INTS[INTS..] || self.floats[FLOATS..] != KEPT_FLOATS[FLOATS..] {
            self.found("a place past ints or floats was written".into());
        }
    }

    fn report_untouched(&self) -> bool {
        self.ints == KEPT_INTS && self.floats == KEPT_FLOATS
    }

    fn buffers_untouched(&self) -> bool {
        self.touched([0; 6]).iter().all(Option::is_none)
    }

    /// The first place of each buffer from the given one on that does not hold what it held before.
    fn touched(&self, [azimuths, codes, physical, marks, totals, output]: [usize; 6]) -> [Option<usize>; 6] {
        [
            self.azimuths.touched(azimuths),
            self.codes.touched(codes),
            self.physical.touched(physical),
            self.marks.touched(marks),
            self.totals.touched(totals),
            self.output.touched(output),
        ]
    }

    /// The places from the given ones on must hold what they held before.
    fn check_kept(&mut self, from: [usize; 6]) {
        for (name, at) in BUFFERS.into_iter().zip(self.touched(from)) {
            if let Some(at) = at {
                self.found(format!("place {at} of {name}, which must be kept, was written"));
            }
        }
    }

    /// A whole number of the report in the width that its value has.
    fn whole<T: TryFrom<i64> + Default>(&mut self, at: usize) -> T {
        let n = self.ints[at];
        T::try_from(n).unwrap_or_else(|_| {
            self.found(format!("ints[{at}] is {n}"));
            T::default()
        })
    }

    /// Places of the report that hold 0 because the entry has nothing to put there.
    fn zero_ints(&mut self, places: &[usize]) {
        for at in places {
            if self.ints[*at] != 0 {
                self.found(format!("ints[{at}] is {}", self.ints[*at]));
            }
        }
    }

    /// An f32 that was widened.
    fn narrow(&mut self, at: usize) -> f32 {
        let x = self.floats[at];
        if !x.is_nan() && (x as f32) as f64 != x {
            self.found(format!("floats[{at}] is {x}, which is no f32"));
        }
        x as f32
    }

    fn refusal(&mut self, number: u32) -> Refusal {
        let (ints, floats) = Refusal::shape(number);
        let mut values = [0; 4];
        for (to, from) in values.iter_mut().zip(&self.ints[..ints]) {
            // the index of a field may take all 64 bits
            *to = if number == 3 { *from as u64 as i128 } else { *from as i128 };
        }
        let float = if floats == 1 { self.narrow(0) } else { 0.0 };
        Refusal { number, ints: values, float }
    }

    fn fields(&mut self) -> Fields {
        self.raw = Some(self.ints[16..20].try_into().unwrap());
        self.zero_ints(&[20, 21, 22, 23]);
        Fields {
            latitude: self.floats[0],
            longitude: self.floats[1],
            height: self.floats[2],
            product_code: self.whole(1),
            vcp: self.whole(2),
            days: self.whole(3),
            seconds: self.whole(4),
            elevation: self.floats[3],
        }
    }

    fn token_at(&mut self, file: &[u8]) -> [u8; 6] {
        let place = self.ints[0];
        let token = usize::try_from(place).ok().and_then(|p| file.get(p..)?.get(..6));
        match token {
            Some(token) => {
                self.place = Some(place as usize);
                token.try_into().unwrap()
            }
            None => {
                self.found(format!("the token's place is {place}"));
                *b"??????"
            }
        }
    }

    /// The part of the payload that ints[0] and ints[1] name.
    fn part<'a>(&mut self, payload: &'a [u8], width: usize) -> &'a [u8] {
        let (start, len) = (self.ints[0], self.ints[1]);
        let range = usize::try_from(start).ok().zip(usize::try_from(len).ok().and_then(|n| n.checked_mul(width)));
        match range.and_then(|(s, n)| payload.get(s..)?.get(..n)) {
            Some(part) => part,
            None => {
                self.found(format!("a part from {start} of length {len}"));
                &[]
            }
        }
    }

    /// The part of a string: its body, from four bytes after the position on, without the zero bytes at its end.
    fn text<'a>(&mut self, payload: &'a [u8], at: usize) -> &'a [u8] {
        let part = self.part(payload, 1);
        let len =
            payload.get(at..).and_then(|p| p.get(..4)).map_or(0, |w| u32::from_be_bytes(w.try_into().unwrap()) as usize);
        let body = payload.get(at + 4..).and_then(|p| p.get(..len)).unwrap_or(&[]);
        let trimmed = &body[..body.iter().rposition(|b| *b != 0).map_or(0, |i| i + 1)];
        if part != trimmed || self.ints[0] as usize != at + 4 {
            self.found(format!("a string's part from {} of length {}", self.ints[0], self.ints[1]));
        }
        part
    }

    /// The picture that the report and the buffers hold.
    fn picture(&mut self) -> Option<Picture> {
        let named = PACKETS.iter().position(|p| *p == self.ints[6]);
        let (radials, bins): (usize, usize) = (self.whole(7), self.whole(8));
        let fits = radials <= self.azimuths.lent && radials.checked_mul(bins).is_some_and(|cells| cells <= self.codes.lent);
        let (Some(packet), true) = (named.map(|p| Packet::ALL[p]), fits) else {
            let [packet, radials, bins] = [6, 7, 8].map(|k| self.ints[k]);
            self.found(format!("accepted packet {packet} with {radials} radials and {bins} bins"));
            return None;
        };
        let geometry = match packet {
            Packet::P28 => {
                self.zero_ints(&[9]);
                Geometry::Gates { width: self.narrow(4), first: self.narrow(5) }
            }
            _ => {
                if self.floats[4..6] != [0.0, 0.0] {
                    self.found(format!("gate figures {:?} without gates", &self.floats[4..6]));
                }
                Geometry::RangeScale(self.whole(9))
            }
        };
        let azimuths = self.azimuths.memory[..radials].iter().map(|b| f64::from_bits(*b)).collect();
        let codes = self.codes.memory[..radials * bins].to_vec();
        Some(Picture { packet, radials, bins, geometry, azimuths, codes })
    }
}

/// The entries on one input, called again and again with nothing done in between: what `bench` times.
pub struct Timed<'a> {
    entries: Entries,
    file: &'a [u8],
    clock: u64,
    scheme: Scheme,
    body: &'a [u8],
    azimuths: Vec<f64>,
    codes: Vec<u16>,
    physical: Vec<f32>,
    marks: Vec<u8>,
    totals: Vec<u64>,
    output: Vec<u8>,
    ints: [i64; INTS],
    floats: [f64; FLOATS],
}

impl<'a> Timed<'a> {
    pub fn new(entries: Entries, file: &'a [u8], clock: u64, scheme: Scheme, body: &'a [u8], lent: Lent) -> Timed<'a> {
        Timed {
            entries,
            file,
            clock,
            scheme,
            body,
            azimuths: vec![0.0; lent.azimuths],
            codes: vec![0; lent.codes],
            physical: vec![0.0; lent.physical],
            marks: vec![0; lent.azimuths],
            totals: vec![0; MOST_TOTALS],
            output: vec![0; MOST_OUTPUT],
            ints: [0; INTS],
            floats: [0.0; FLOATS],
        }
    }

    pub fn sweep(&mut self) -> u32 {
        unsafe {
            (self.entries.sweep)(
                self.file.as_ptr(),
                self.file.len(),
                self.clock,
                self.scheme.index() as u32,
                self.scheme.parameter(),
                self.body.as_ptr(),
                self.body.len(),
                self.azimuths.as_mut_ptr(),
                self.azimuths.len(),
                self.codes.as_mut_ptr(),
                self.codes.len(),
                self.physical.as_mut_ptr(),
                self.physical.len(),
                self.ints.as_mut_ptr(),
                INTS,
                self.floats.as_mut_ptr(),
                FLOATS,
            )
        }
    }

    pub fn strict(&mut self) -> u32 {
        unsafe {
            (self.entries.strict)(
                self.file.as_ptr(),
                self.file.len(),
                self.clock,
                self.scheme.index() as u32,
                self.scheme.parameter(),
                self.body.as_ptr(),
                self.body.len(),
                self.azimuths.as_mut_ptr(),
                self.azimuths.len(),
                self.codes.as_mut_ptr(),
                self.codes.len(),
                self.physical.as_mut_ptr(),
                self.physical.len(),
                self.ints.as_mut_ptr(),
                INTS,
                self.floats.as_mut_ptr(),
                FLOATS,
            )
        }
    }

    pub fn gaps(&mut self) -> u32 {
        unsafe {
            (self.entries.gaps)(
                self.file.as_ptr(),
                self.file.len(),
                self.clock,
                self.scheme.index() as u32,
                self.scheme.parameter(),
                self.body.as_ptr(),
                self.body.len(),
                self.azimuths.as_mut_ptr(),
                self.azimuths.len(),
                self.codes.as_mut_ptr(),
                self.codes.len(),
                self.physical.as_mut_ptr(),
                self.physical.len(),
                self.marks.as_mut_ptr(),
                self.marks.len(),
                self.ints.as_mut_ptr(),
                INTS,
                self.floats.as_mut_ptr(),
                FLOATS,
            )
        }
    }

    pub fn merge(&mut self, second: &[u8]) -> u32 {
        unsafe {
            (self.entries.merge)(
                self.file.as_ptr(),
                self.file.len(),
                self.clock,
                self.scheme.index() as u32,
                self.scheme.parameter(),
                self.body.as_ptr(),
                self.body.len(),
                second.as_ptr(),
                second.len(),
                self.azimuths.as_mut_ptr(),
                self.azimuths.len(),
                self.codes.as_mut_ptr(),
                self.codes.len(),
                self.physical.as_mut_ptr(),
                self.physical.len(),
                self.marks.as_mut_ptr(),
                self.marks.len(),
                self.ints.as_mut_ptr(),
                INTS,
                self.floats.as_mut_ptr(),
                FLOATS,
            )
        }
    }

    pub fn totals(&mut self, plan: &[u8]) -> u32 {
        unsafe {
            (self.entries.totals)(
                self.file.as_ptr(),
                self.file.len(),
                self.clock,
                self.scheme.index() as u32,
                self.scheme.parameter(),
                self.body.as_ptr(),
                self.body.len(),
                plan.as_ptr(),
                plan.len(),
                self.azimuths.as_mut_ptr(),
                self.azimuths.len(),
                self.codes.as_mut_ptr(),
                self.codes.len(),
                self.physical.as_mut_ptr(),
                self.physical.len(),
                self.totals.as_mut_ptr(),
                self.totals.len(),
                self.ints.as_mut_ptr(),
                INTS,
                self.floats.as_mut_ptr(),
                FLOATS,
            )
        }
    }

    pub fn export(&mut self) -> u32 {
        unsafe {
            (self.entries.export16)(
                self.body.as_ptr(),
                self.body.len(),
                self.output.as_mut_ptr(),
                self.output.len(),
                self.ints.as_mut_ptr(),
                INTS,
                self.floats.as_mut_ptr(),
                FLOATS,
            )
        }
    }

    pub fn symbology(&mut self) -> u32 {
        unsafe {
            (self.entries.symbology)(
                self.body.as_ptr(),
                self.body.len(),
                self.azimuths.as_mut_ptr(),
                self.azimuths.len(),
                self.codes.as_mut_ptr(),
                self.codes.len(),
                self.ints.as_mut_ptr(),
                INTS,
                self.floats.as_mut_ptr(),
                FLOATS,
            )
        }
    }
}

/// A clear scan of packet AF1F, whose export has as many bytes.
const CLEAR: [u8; 30] = {
    let mut body = [0; 30];
    (body[0], body[1], body[3], body[16], body[17], body[21]) = (0xff, 0xff, 1, 0xaf, 0x1f, 1);
    body
};

/// The readings of a sweep, with a plan, marks or a second body that stand for any.
const SWEEPS: [(&str, Beside); 5] = [
    ("l3_sweep", Beside::Nothing),
    ("l3_strict", Beside::NothingStrict),
    ("l3_gaps", Beside::Marks(0)),
    ("l3_merge", Beside::Second(&[], 0)),
    ("l3_totals", Beside::Plan(&[], 0)),
];

const KEPT_INTS: [i64; INTS + GUARD] = [-0x5a5a_5a5a_5a5a_5a5b; INTS + GUARD];
const KEPT_FLOATS: [f64; FLOATS + GUARD] = [-6.25e77; FLOATS + GUARD];

fn pattern8(i: usize) -> u8 {
    0xa4 ^ (i % 16) as u8
}

fn pattern16(i: usize) -> u16 {
    0xa5c3 ^ i as u16
}

fn pattern32(i: usize) -> u32 {
    0x4b3c_0000 ^ i as u32
}

fn pattern64(i: usize) -> u64 {
    0x4f1e_d2c3_0000_0000 ^ i as u64
}
