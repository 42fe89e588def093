//! The cases that every run has: codes, short inputs and day numbers exhaustively, names, every length of small files and bodies, every byte of
//! them, rows of every length up to 200 cells, radials of every mix of lengths, gaps in all of these, clear scans, exports, readings
//! by the archive profile, the places outside the Rust's domain, the caps, and the two grid sizes.
use super::plans::{with_flags, PRECIP};
use super::Compare;
use crate::make::body::{self, Body};
use crate::make::{cases, file, Rng};
use crate::model::{self, tenths};
use crate::port::READS;
use crate::sample;
use lines::{Answer, Case, FieldKind, Lent, Packet, Refusal, Scheme};

/// Every list of up to `most` elements.
pub(super) fn lists<T: Copy>(of: &[T], most: usize) -> Vec<Vec<T>> {
    let mut all = vec![vec![]];
    let mut last = all.clone();
    for _ in 0..most {
        last = last.iter().flat_map(|l: &Vec<T>| of.iter().map(move |x| [l.as_slice(), &[*x]].concat())).collect();
        all.extend(last.iter().cloned());
    }
    all
}

/// A string's words: its length, and its bytes, a multiple of four.
fn words_of(text: &[u8]) -> Vec<u32> {
    let body = text.chunks(4).map(|w| u32::from_be_bytes(w.try_into().unwrap()));
    [text.len() as u32].into_iter().chain(body).collect()
}

fn words(list: &[u32]) -> Vec<u8> {
    list.iter().flat_map(|w| w.to_be_bytes()).collect()
}

/// Numbers at which a sum or product of the place of a field would wrap.
const EXTREMES: [usize; 12] =
    [0, 1, 2, 4, 65_535, 65_536, 1 << 32, (1 << 63) - 1, 1 << 63, (1 << 63) + 1, usize::MAX - 1, usize::MAX];

impl Compare {
    pub fn fixed(&mut self, seed: u64) {
        self.boundary();
        for (_, case) in sample::edges() {
            self.both(&case);
        }
        self.codes();
        self.names();
        self.texts();
        self.times();
        self.dates();
        self.fields();
        self.blocks(seed);
        self.levels(seed);
        self.thresholds(seed);
        self.xdr_words();
        self.items();
        self.reads();
        for number in 0..4 {
            let rng = &mut Rng::new(seed, u64::MAX - number);
            self.every_length(rng);
            self.every_byte(rng);
        }
        self.every_width(seed);
        self.gaps_fixed(seed);
        self.merges_fixed(seed);
        self.plans_fixed(seed);
        self.clear_fixed(seed);
        self.level_counts(seed);
        self.charges_fixed();
        self.exports_fixed(seed);
        self.strict_fixed(seed);
        self.tenths();
        self.mixed_radials(seed);
        self.every_centre(seed);
        self.caps(seed);
        self.grids(seed);
    }

    fn boundary(&mut self) {
        for (what, kept) in self.port.boundary() {
            self.promise(&what, kept);
        }
    }

    fn codes(&mut self) {
        self.both(&Case::Codes);
        for code in i16::MIN..=i16::MAX {
            self.both(&Case::Known { code });
            self.both(&Case::Product { code });
        }
    }

    /// The names of the refusals, in fewer places than they have and in more; and the version.
    fn names(&mut self) {
        for number in (0..=120).chain([1 << 31, u32::MAX]) {
            for places in cases::PLACES {
                self.both(&Case::Name { number, places });
            }
        }
        let version = self.port.version();
        self.promise(&format!("l3_version is {version}"), version == model::VERSION);
    }

    fn texts(&mut self) {
        for bytes in lists(&[0, 1, 3, b'\n', b'\r', 0xff], 5) {
            self.both(&Case::Trail { bytes });
        }
        for file in lists(b"A\r\n", 9) {
            self.both(&Case::Token { file });
        }
        let pieces: [&[u8]; 12] =
            [b"N0BLOT", b"n0blo", b"N0BLOTX", b"\r\r\n", b"\r", b"\n", b" ", b"\t", b"\x0c", b"\x0b", b"\0", b"9"];
        for list in lists(&pieces, 4) {
            self.both(&Case::Token { file: list.concat() });
        }
        // a token at each place around byte 128
        for at in 115..=131 {
            for filler in *b"x \r\n" {
                for (before, after) in [(&b""[..], &b""[..]), (b"\r\r\n", b""), (b"\r\r\n", b"\r\r\n"), (b"\r\r\n", b" x")] {
                    let mut text = vec![filler; at];
                    text.extend([before, b"N0BLOT", after].concat());
                    self.both(&Case::Token { file: text });
                }
            }
        }
        // a header at each place of each length
        for len in 0..=152 {
            for at in 0..len {
                let mut text = vec![0; len];
                for (k, b) in [(0, 0), (1, 153), (18, 0xff), (19, 0xff)] {
                    if at + k < len {
                        text[at + k] = b;
                    }
                }
                self.both(&Case::Mhb { file: text });
            }
        }
    }

    fn times(&mut self) {
        for days in [0, 1, 2, 3, 20_000, 32_767, 32_768, 65_534, 65_535] {
            for seconds in [i32::MIN, -1, 0, 1, 43_200, 86_399, 86_400, i32::MAX] {
                let at = (days as i128 - 1) * 86_400 + seconds as i128;
                let near = [at - 86_402, at - 86_401, at - 86_400, at - 86_399, at - 1, at, at + 1];
                let odd = [0, 1, (1 << 40) - 1, 1 << 40, (1 << 40) + 1, 1 << 41, i64::MAX as i128, u64::MAX as i128];
                for clock in near.into_iter().chain(odd).filter(|c| *c >= 0) {
                    self.both(&Case::Time { clock, days, seconds });
                }
            }
        }
    }

    /// Every day number.
    fn dates(&mut self) {
        for days in 0..=65_535 {
            self.both(&Case::Date { days });
        }
    }

    fn fields(&mut self) {
        for len in 0..=14 {
            let file: Vec<u8> = (0..len).map(|i| 0x81 + 0x1d * i as u8).collect();
            for kind in cases::KINDS {
                for (block, index) in (0..8).flat_map(|block| (1..7).map(move |index| (block, index))) {
                    self.both(&Case::Field { file: file.clone(), block, index, kind });
                }
                for (block, index) in EXTREMES.into_iter().flat_map(|b| EXTREMES.map(|i| (b, i))) {
                    self.outside_field(Case::Field { file: file.clone(), block, index, kind });
                }
            }
        }
    }

    /// A field whose block start or index the Rust does not take: the table's answer is worked out here.
    fn outside_field(&mut self, case: Case) {
        let Case::Field { file, block, index, kind } = &case else { return };
        let width = match kind {
            FieldKind::I16 | FieldKind::U16 => 2,
            FieldKind::I32 => 4,
            FieldKind::Pair => 8,
        };
        let Some(at) = model::field_place(file.len(), *block, *index, width) else {
            return self.table(&case, Answer::Refused(Refusal::new(3, &[*index as i128])));
        };
        let bytes = &file[at..at + width];
        let answer = match kind {
            FieldKind::I16 => Answer::Number(i16::from_be_bytes(bytes.try_into().unwrap()).into()),
            FieldKind::U16 => Answer::Number(u16::from_be_bytes(bytes.try_into().unwrap()).into()),
            FieldKind::I32 => Answer::Number(i32::from_be_bytes(bytes.try_into().unwrap()).into()),
            FieldKind::Pair => {
                let float = |from: usize| f32::from_be_bytes(bytes[from..from + 4].try_into().unwrap());
                Answer::Pair(float(0), float(4))
            }
        };
        self.table(&case, answer);
    }

    /// A place outside the Rust's domain.
    pub(super) fn outside(&mut self, rng: &mut Rng) {
        let any = |rng: &mut Rng| match rng.below(3) {
            0 => rng.u64() as usize,
            1 => rng.pick(&EXTREMES),
            _ => rng.pick(&EXTREMES).wrapping_add(rng.below(200)).wrapping_sub(100),
        };
        let n = rng.below(130);
        let file = rng.bytes(n);
        if rng.one_in(2) {
            let (block, index) = (any(rng), any(rng));
            return self.outside_field(Case::Field { file, block, index, kind: rng.pick(&cases::KINDS) });
        }
        // any block from which every field is outside
        let block = any(rng).max(file.len());
        self.outside_block(file, block);
    }

    fn outside_block(&mut self, file: Vec<u8>, block: usize) {
        let three = |index| Answer::Refused(Refusal::new(3, &[index]));
        self.table(&Case::Pdb { file: file.clone(), block }, three(2));
        self.table(&Case::Lin { file: file.clone(), block }, three(22));
        self.table(&Case::Flt { file: file.clone(), block }, three(22));
        self.table(&Case::Prc { file: file.clone(), block, factor: 1.0 }, three(22));
        self.table(&Case::Thr { file, block }, three(22));
    }

    /// The readings of several fields, from a file cut at every length.
    fn blocks(&mut self, seed: u64) {
        let rng = &mut Rng::new(seed, u64::MAX / 2);
        for scheme in 0..5 {
            let made = file::file(rng, Scheme::of(scheme, 1.0).unwrap(), 20_000, 3600);
            let bytes = &made.bytes[made.block()..];
            for len in 0..=bytes.len() {
                for block in 0..3 {
                    let file = [&vec![7; block], &bytes[..len]].concat();
                    self.both(&Case::Pdb { file: file.clone(), block });
                    self.both(&Case::Lin { file: file.clone(), block });
                    self.both(&Case::Flt { file: file.clone(), block });
                    self.both(&Case::Prc { file: file.clone(), block, factor: 0.254 });
                    self.both(&Case::Thr { file, block });
                }
            }
            for block in EXTREMES.into_iter().filter(|b| *b >= 65_535) {
                self.outside_block(bytes.to_vec(), block);
            }
        }
    }

    fn levels(&mut self, seed: u64) {
        let rng = &mut Rng::new(seed, u64::MAX / 3);
        for flag in 0..=255 {
            for _ in 0..16 {
                let mut thresholds = [flag; 32];
                for level in 0..16 {
                    thresholds[2 * level + 1] = if level == 0 { 0 } else { rng.byte() };
                }
                let post_scale = if rng.one_in(2) { rng.odd_f32() } else { rng.plain_f32() };
                self.both(&Case::Leg { thresholds, post_scale });
            }
        }
    }

    /// The thresholds of every block start around the file and just below 2^64, where the place would wrap.
    fn thresholds(&mut self, seed: u64) {
        let rng = &mut Rng::new(seed, u64::MAX / 19);
        let file = file::file(rng, Scheme::Legacy(1.0), 20_000, 3600).bytes;
        for block in 0..file.len() + 3 {
            self.both(&Case::Thr { file: file.clone(), block });
        }
        for block in usize::MAX - file.len()..=usize::MAX {
            self.table(&Case::Thr { file: file.clone(), block }, Answer::Refused(Refusal::new(3, &[22])));
        }
    }

    /// M-105: floors and ceilings at and around every place at which the Rust's count of levels is another; and between the port's own
    /// entries, the count is the number of codes from 0 to 65,535 that `l3_physical` gives a value.
    fn level_counts(&mut self, seed: u64) {
        let rng = &mut Rng::new(seed, u64::MAX / 29);
        let all: Vec<u16> = (0..=u16::MAX).collect();
        let largest = (0..=12).chain([255, 256, 0x7fff, 0x8000]).chain(0xfff6..=0xffff);
        let odd = [0, 1, 2, 7, 8, 9, 0xffff];
        for flags in largest.flat_map(|l: u16| odd.into_iter().flat_map(move |a| odd.map(|b| [l, a, b]))) {
            let file = with_flags(plain_file(rng, PRECIP), flags);
            for packet in Packet::ALL {
                let body = body::of_size(rng, packet, 1, 1).bytes;
                let case = whole(PRECIP, &file, body);
                let (_, port) = self.both(&case);
                if packet == Packet::P16 {
                    let block = self.port.block(&file);
                    let values = self.port.values(&file, block, PRECIP, &all, all.len()).unwrap_or_default();
                    let valued = values.iter().filter(|x| !x.is_nan()).count();
                    let given = match &port {
                        Answer::Sweep(sweep) => sweep.scale.map(|scale| scale.levels as usize),
                        _ => None,
                    };
                    let what =
                        format!("{valued} codes have a value, and the level count is {given:?}: {}", case.line("count"));
                    let fault = self.port.take_fault();
                    self.promise(&what, given == Some(valued) && fault.is_none());
                    self.counts.accepted += 1;
                    *self.counts.kinds.entry("counts").or_default() += 1;
                }
            }
        }
    }

    /// M-108: of the port's values of codes 2 to 255, each is within 1 / 8 of the exact tenths and above the one before, for every step
    /// with some minima, and for every minimum with step 1.
    fn tenths(&mut self) {
        let codes: Vec<u16> = tenths::CODES.collect();
        let minima = [i16::MIN, -32_767, -320, -1, 0, 1, 3, i16::MAX];
        let steps = minima.into_iter().flat_map(|m| (1..=i16::MAX).map(move |i| (m, i)));
        for (m, i) in steps.chain((i16::MIN..=i16::MAX).map(|m| (m, 1))) {
            let values = self.port.values(&tenths::block(m, i), 0, Scheme::Halfword, &codes, codes.len());
            let wrong = tenths::greatest_distance(m, i, &values.unwrap_or_default()).err().or(self.port.take_fault());
            self.promise(wrong.as_deref().unwrap_or_default(), wrong.is_none());
            self.counts.accepted += 1;
            *self.counts.kinds.entry("tenths").or_default() += 1;
        }
    }

    fn xdr_words(&mut self) {
        for list in lists(&cases::WORDS, 3) {
            for more in 0..4 {
                let mut payload = words(&list);
                payload.extend(&[b'a', 0, b'b'][..more]);
                for op in ["i", "u", "f", "s", "a", "l"] {
                    self.both(&Case::Xdr { ops: op.into(), payload: payload.clone() });
                }
            }
        }
        let payload = words(&[1, 0x6100_0000, 2, 0, 1, 0x6200_0000, 1, 0x6300_0000, 9, 0, 0, 0x7fc0_0000]);
        for op in "iufsal".chars() {
            let far = [payload.len() + 1, payload.len() + 5, 1 << 32, 1 << 63, usize::MAX - 3, usize::MAX];
            for at in (0..=payload.len()).chain(far) {
                self.xdr_at(op, &payload, at);
                self.xdr_at(op, &payload[..payload.len() - 3], at);
            }
        }
    }

    /// One cursor over an item of each kind: every list of up to three words where each item begins, and good items cut at every length.
    fn items(&mut self) {
        let good = [vec![7, 8, 9], words_of(b"ab\0\0"), vec![2, 5, 6], vec![1, 0], vec![2, 0, 0, 1, 0x6100_0000, 0, 0, 0]];
        for begun in 0..good.len() {
            for list in lists(&cases::WORDS, 3) {
                let payload = words(&[good[..begun].concat(), list].concat());
                for more in 0..4 {
                    self.both(&Case::Each { payload: [&payload[..], &[b'a', 0, b'b'][..more]].concat() });
                }
            }
        }
        let payload = words(&good.concat());
        for len in 0..=payload.len() {
            self.both(&Case::Each { payload: payload[..len].to_vec() });
        }
    }

    /// Every offset around the end of up to nine bytes. The offsets at which the Rust's sum would wrap are the table's.
    fn reads(&mut self) {
        for len in 0..=9 {
            let bytes: Vec<u8> = (0..len).map(|i| 0x7f + 0x43 * i as u8).collect();
            for kind in READS {
                for offset in 0..len + 6 {
                    self.both(&Case::Read { bytes: bytes.clone(), offset, kind });
                }
                for offset in
                    EXTREMES.into_iter().chain([usize::MAX - 4, usize::MAX - 3, usize::MAX - 2]).filter(|o| *o >= 65_535)
                {
                    self.table(&Case::Read { bytes: bytes.clone(), offset, kind }, Answer::Nothing);
                }
            }
        }
    }

    fn every_length(&mut self, rng: &mut Rng) {
        for packet in Packet::ALL {
            let (file, body) = small(rng, packet, Scheme::Class);
            for len in 0..=body.bytes.len() {
                let cut = body.bytes[..len].to_vec();
                self.both(&Case::Sym { body: cut.clone() });
                self.both(&whole(Scheme::Class, &file, cut));
            }
            if packet == Packet::P28 {
                // the payload's length cut with it
                for len in 24..=body.bytes.len() {
                    let mut cut = body.bytes[..len].to_vec();
                    cut[20..24].copy_from_slice(&(len as u32 - 24).to_be_bytes());
                    self.both(&Case::Sym { body: cut });
                }
            }
        }
        for scheme in 0..5 {
            let scheme = Scheme::of(scheme, 0.254).unwrap();
            let (file, body) = small(rng, Packet::Af1f, scheme);
            for len in 0..=file.len() {
                self.both(&whole(scheme, &file[..len], body.bytes.clone()));
            }
        }
    }

    fn every_byte(&mut self, rng: &mut Rng) {
        let all: Vec<u8> = (0..=255).collect();
        let some = [0, 1, 2, 3, 4, 5, 0x10, 0x27, 0x7f, 0x80, 0xfe, 0xff];
        for packet in Packet::ALL {
            let (_, body) = small(rng, packet, Scheme::Class);
            let values = if packet == Packet::P28 { &some[..] } else { &all };
            for at in 0..body.bytes.len() {
                let mut changed = body.bytes.clone();
                for value in values {
                    changed[at] = *value;
                    self.both(&Case::Sym { body: changed.clone() });
                }
            }
        }
        for scheme in 0..5 {
            let scheme = Scheme::of(scheme, 25.4).unwrap();
            let (file, body) = small(rng, Packet::Af1f, scheme);
            for at in 0..file.len() {
                let mut changed = file.clone();
                for value in [0, 1, 9, b'A', b'\r', 0x7f, 0x80, 0xff] {
                    changed[at] = value;
                    self.both(&whole(scheme, &changed, body.bytes.clone()));
                }
            }
        }
    }

    /// Rows of every length up to 200 cells: codes and values are written in blocks, with a rest of every size.
    fn every_width(&mut self, seed: u64) {
        let rng = &mut Rng::new(seed, u64::MAX / 3);
        for scheme in 0..5 {
            let scheme = Scheme::of(scheme, 0.254).unwrap();
            let file = plain_file(rng, scheme);
            for packet in Packet::ALL {
                for bins in 1..=200 {
                    let body = body::of_size(rng, packet, 2, bins).bytes;
                    let lent = Lent { azimuths: 3, codes: 2 * bins + 1, physical: 2 * bins + bins % 2 };
                    self.both(&Case::Sweep { clock: 1 << 40, scheme, lent, file: file.clone(), body });
                }
            }
        }
    }

    /// Gap readings: rows of every length with and without gaps, radials of every mix of data, every length around each bound of the
    /// buffers, bodies with and without a gap cut at every length and with every byte changed.
    fn gaps_fixed(&mut self, seed: u64) {
        for (_, case) in sample::gaps() {
            self.both_readings(&case);
        }
        let rng = &mut Rng::new(seed, u64::MAX / 17);
        for scheme in 0..5 {
            let scheme = Scheme::of(scheme, 0.254).unwrap();
            let file = value_at_0(plain_file(rng, scheme), scheme);
            for packet in Packet::ALL {
                for bins in 1..=200 {
                    let mut body = body::of_size(rng, packet, 3, bins).bytes;
                    for radial in (0..3).filter(|radial| bins >> radial & 1 == 1) {
                        spoil(&mut body, radial);
                    }
                    let lent = Lent { azimuths: 4, codes: 3 * bins + 1, physical: 3 * bins + bins % 2 };
                    self.both_readings(&Case::Gaps {
                        clock: 1 << 40,
                        scheme,
                        lent,
                        marks: 3 + bins % 3,
                        file: file.clone(),
                        body,
                    });
                }
                for gaps in 0..4 {
                    let mut body = body::of_size(rng, packet, 2, 3).bytes;
                    (0..2).filter(|radial| gaps >> radial & 1 == 1).for_each(|radial| spoil(&mut body, radial));
                    self.every_lent(scheme, &file, &body);
                }
            }
        }
        let file = plain_file(rng, Scheme::Class);
        for bytes in run_mixes(rng) {
            self.both_readings(&whole(Scheme::Class, &file, bytes).with_marks(3));
        }
        for packet in Packet::ALL {
            for gap in 0..3 {
                let (radials, bins) = (rng.between(2, 3), rng.between(1, 6));
                let mut body = body::of_size(rng, packet, radials, bins).bytes;
                if gap < 2 {
                    spoil(&mut body, gap);
                }
                for len in 0..body.len() {
                    self.both_readings(&whole(Scheme::Class, &file, body[..len].to_vec()).with_marks(3));
                }
                for at in 0..body.len() {
                    let mut changed = body.clone();
                    for value in [0, 1, 2, 3, 4, 5, 0x10, 0x27, 0x7f, 0x80, 0xfe, 0xff] {
                        changed[at] = value;
                        self.both_readings(&whole(Scheme::Class, &file, changed.clone()).with_marks(4));
                    }
                }
            }
        }
    }

    /// Two radials of three bins, every buffer one place short, just long enough and longer, or nothing.
    fn every_lent(&mut self, scheme: Scheme, file: &[u8], body: &[u8]) {
        for mix in 0..4usize.pow(4) {
            let [azimuths, codes, physical, marks] =
                [(2, 1), (6, 4), (6, 16), (2, 64)].map(|(need, unit)| [0, need - 1, need, need + 2][mix / unit % 4]);
            let (lent, clock) = (Lent { azimuths, codes, physical }, 1 << 40);
            self.both_readings(&Case::Gaps { clock, scheme, lent, marks, file: file.to_vec(), body: body.to_vec() });
        }
    }

    /// Five radials of packet 16 of every mix of three lengths, all good, and with each of them in turn refused: the check guesses that
    /// a radial is as long as the one before.
    fn mixed_radials(&mut self, seed: u64) {
        let rng = &mut Rng::new(seed, u64::MAX / 11);
        for mix in 0..3usize.pow(5) {
            let mut bytes = body::header(rng, Packet::P16, 5, 2);
            let mut widths = vec![];
            for radial in 0..5 {
                let count = 2 + mix / 3usize.pow(radial) % 3;
                widths.push(bytes.len() + 4);
                bytes.extend([count as u16, rng.u16(), 10].map(u16::to_be_bytes).concat());
                bytes.extend(rng.bytes(count));
            }
            self.both(&Case::Sym { body: bytes.clone() });
            for at in widths {
                let mut refused = bytes.clone();
                refused[at + 1] = 0;
                self.both(&Case::Sym { body: refused });
            }
            bytes.pop();
            self.both(&Case::Sym { body: bytes });
        }
    }

    /// Every start and width of packets 16 and AF1F: bodies of 32,768 radials of one width and one bin.
    fn every_centre(&mut self, seed: u64) {
        let rng = &mut Rng::new(seed, u64::MAX / 13);
        for (packet, data) in [(Packet::P16, &[7][..]), (Packet::Af1f, &[0x17, 0])] {
            for width in 1..=100u16 {
                for starts in [0..=0x7fff, 0x8000..=0xffffu16] {
                    let mut bytes = body::header(rng, packet, starts.len(), 1);
                    for start in starts {
                        bytes.extend([1, start, width].map(u16::to_be_bytes).concat());
                        bytes.extend(data);
                    }
                    self.both(&Case::Sym { body: bytes });
                }
            }
        }
    }

    /// The caps themselves, with all that they ask for behind them.
    fn caps(&mut self, seed: u64) {
        let rng = &mut Rng::new(seed, u64::MAX / 5);
        // a string, an array, a list of two empty strings each: whole, and one byte short
        for (op, cap) in [("s", 4096usize), ("a", 100_000), ("l", 10_000)] {
            for count in [cap - 1, cap, cap + 1] {
                let size = match op {
                    "s" => count.next_multiple_of(4),
                    "a" => 4 * count,
                    _ => 4 + 8 * count + 4 * (count - 1),
                };
                let mut payload = words(&[count as u32]);
                payload.resize(4 + size, 0);
                for short in 0..2 {
                    payload.truncate(payload.len() - short);
                    self.both(&Case::Xdr { ops: op.into(), payload: payload.clone() });
                }
            }
        }
        // as many radials and as long an array as packet 28 may have, and as many as sixteen bits name
        for (packet, radials, bins) in [
            (Packet::P28, 100_000, 40),
            (Packet::P28, 100_000, 41),
            (Packet::P28, 40, 100_000),
            (Packet::Af1f, 65_535, 61),
            (Packet::Af1f, 61, 65_535),
        ] {
            self.grid(rng, packet, radials, bins, Scheme::Class);
        }
    }

    /// 2,000 × 2,000 cells pass, 2,000 × 2,001 do not.
    fn grids(&mut self, seed: u64) {
        let rng = &mut Rng::new(seed, u64::MAX / 7);
        for packet in Packet::ALL {
            for bins in [2000, 2001] {
                self.grid(rng, packet, 2000, bins, Scheme::Precip(0.254));
            }
        }
    }

    fn grid(&mut self, rng: &mut Rng, packet: Packet, radials: usize, bins: usize, scheme: Scheme) {
        let file = plain_file(rng, scheme);
        let body = body::of_size(rng, packet, radials, bins).bytes;
        self.both(&Case::Sym { body: body.clone() });
        let lent = Lent { azimuths: radials + 2, codes: radials * bins + 2, physical: radials * bins + 2 };
        let (rust, _) = self.both(&Case::Sweep { clock: 1 << 40, scheme, lent, file, body });
        let refusal = rust.refusal().map_or("nothing".into(), |r| r.to_string());
        let what = format!("packet {} with {radials} x {bins} cells is refused with {refusal}", packet.name());
        self.promise(&what, rust.refusal().is_none() == (radials * bins <= 4_000_000));
    }
}

/// Three AF1F radials of three bins, each of any of eight data: rows, too short, too long, none, and rows with more behind them.
pub(super) fn run_mixes(rng: &mut Rng) -> Vec<Vec<u8>> {
    let data: [&[u8]; 8] =
        [&[0x31, 0], &[0x11, 0x22], &[], &[0x21, 0x22], &[0x2f, 0x00], &[0x41, 0x31], &[0, 0x0f, 0x1e, 0x2d], &[0x35, 0xff]];
    let mut mixes = vec![];
    for mix in 0..8usize.pow(3) {
        let mut bytes = body::header(rng, Packet::Af1f, 3, 3);
        for data in [1, 8, 64].map(|unit| data[mix / unit % 8]) {
            bytes.extend([data.len() as u16 / 2, 10, 10].map(u16::to_be_bytes).concat());
            bytes.extend(data);
        }
        mixes.push(bytes);
    }
    mixes
}

/// A file whose scale fields pass under the scheme.
pub(super) fn plain_file(rng: &mut Rng, scheme: Scheme) -> Vec<u8> {
    let mut made = file::file(rng, scheme, 20_000, 3600);
    match scheme {
        Scheme::Halfword => made.set(23, &5i16.to_be_bytes()),
        Scheme::Float | Scheme::Precip(_) => {
            made.set(22, &16f32.to_be_bytes());
            made.set(24, &128f32.to_be_bytes());
        }
        _ => {}
    }
    made.bytes
}

/// A file under which code 0 has a value: level 0, or floor 0.
fn value_at_0(mut file: Vec<u8>, scheme: Scheme) -> Vec<u8> {
    let block = model::header_place(&file).unwrap() + 18;
    match scheme {
        Scheme::Precip(_) => file[block + 52..block + 58].copy_from_slice(&[0, 255, 0, 0, 0, 2]),
        Scheme::Legacy(_) => file[block + 42..block + 44].copy_from_slice(&[0, 9]),
        _ => {}
    }
    file
}

/// Data that make no row, after a first cell: one run of one cell or of two, or a last level over 16 bits. Packet 16 has no such data.
pub(super) fn spoil(body: &mut [u8], radial: usize) {
    let layout = model::layout(body);
    let data = &mut body[layout.data[radial].clone()];
    match layout.packet {
        Packet::P16 => data[0] ^= 1,
        Packet::Af1f => {
            data.fill(0);
            data[0] = if layout.bins == 1 { 0x2f } else { 0x1f };
        }
        Packet::P28 => {
            let last = data.len() - 4;
            data[last..].copy_from_slice(&65_536u32.to_be_bytes());
        }
    }
}

/// A file and a small body, both good.
fn small(rng: &mut Rng, packet: Packet, scheme: Scheme) -> (Vec<u8>, Body) {
    let (radials, bins) = (rng.between(1, 3), rng.between(1, 6));
    (plain_file(rng, scheme), body::of_size(rng, packet, radials, bins))
}

pub(super) fn whole(scheme: Scheme, file: &[u8], body: Vec<u8>) -> Case {
    let lent = Lent { azimuths: 4, codes: 20, physical: 19 };
    Case::Sweep { clock: 1 << 40, scheme, lent, file: file.to_vec(), body }
}
