//! Document 01's sentences once more, worked out here without the Rust and without the port: where the token, the message
//! header and the fields stand, what a code's physical value is, where a body's radials stand, which of its bytes are data or
//! unread, and what row a radial's data make or that they make none; and of document 02 the centres, the gaps, the dates,
//! the count of levels, the charges, the clear scans, the whole numbers of the description record and, in plans.rs, the field
//! plans; in merges.rs two receptions merged; in strict.rs the archive profile; in tenths.rs how close the tenths are, and in
//! export.rs what is exported. Beyond the documents the units of the moments and the library's version.
use lines::{Answer, Date, Packet, Picture, Refusal, Scheme, Sweep};
use std::ops::Range;

pub mod export;
pub mod merges;
pub mod plans;
pub mod strict;
pub mod tenths;

/// The codes of the products.
pub const CODES: [u16; 26] =
    [19, 20, 25, 27, 28, 30, 56, 78, 79, 80, 94, 99, 153, 154, 155, 159, 161, 163, 165, 170, 172, 173, 174, 175, 176, 177];

/// The version that the library says.
pub const VERSION: u32 = 40_000;

/// The unit of a moment.
pub fn unit(moment: &str) -> &'static str {
    match moment {
        "DBZH" => "dBZ",
        "VRADH" | "WRADH" | "SRMV" => "m/s",
        "ZDR" => "dB",
        "RHOHV" => "ratio",
        "KDP" => "deg/km",
        "HCLASS" => "class",
        "ACCUM" => "mm",
        "RATE" => "mm/h",
        other => panic!("no moment is called {other}"),
    }
}

/// The first of six alphanumerics in the first 128 bytes.
pub fn token_place(file: &[u8]) -> Option<usize> {
    let head = &file[..file.len().min(128)];
    let mut start = 0;
    loop {
        let cut = (start..head.len().saturating_sub(2)).find(|i| &head[*i..i + 3] == b"\r\r\n");
        let end = cut.unwrap_or(head.len());
        let blank = |b: u8| matches!(b, b' ' | b'\t' | b'\n' | 0x0c | b'\r');
        let from = (start..end).find(|i| !blank(head[*i])).unwrap_or(end);
        let to = (from..end).rev().find(|i| !blank(head[*i])).map_or(from, |i| i + 1);
        if to - from == 6 && head[from..to].iter().all(u8::is_ascii_alphanumeric) {
            return Some(from);
        }
        start = cut? + 3;
    }
}

pub fn header_place(file: &[u8]) -> Option<usize> {
    let halfword = |at: usize| u16::from_be_bytes([file[at], file[at + 1]]);
    let ends = file.len().min(128).saturating_sub(20);
    (0..ends).find(|at| CODES.contains(&halfword(*at)) && halfword(at + 18) == 0xffff)
}

/// Where a field of `width` bytes stands, if it is inside.
pub fn field_place(len: usize, block: usize, index: usize, width: usize) -> Option<usize> {
    let from = block as u128 + 2 * (index as u128).checked_sub(1)?;
    if from + width as u128 <= len as u128 {
        Some(from as usize)
    } else {
        None
    }
}

/// M-110: latitude and longitude in thousandths, height in feet, elevation in tenths, as they stand in the block.
pub fn raw_fields(file: &[u8], block: usize) -> Option<[i64; 4]> {
    let long = |index| {
        let at = field_place(file.len(), block, index, 4)?;
        Some(i32::from_be_bytes(file[at..at + 4].try_into().unwrap()) as i64)
    };
    let short = |index| {
        let at = field_place(file.len(), block, index, 2)?;
        Some(i16::from_be_bytes([file[at], file[at + 1]]) as i64)
    };
    Some([long(2)?, long(4)?, short(6)?, short(21)?])
}

/// The floats beside them: latitude, longitude, height, elevation.
pub fn floats_of([latitude, longitude, feet, tenths]: [i64; 4]) -> [f64; 4] {
    [latitude as f64 / 1000.0, longitude as f64 / 1000.0, feet as f64 * 0.3048, tenths as f64 / 10.0]
}

/// The physical value of a code, from the scheme and the file's scale fields, each operation rounded once.
/// The file must have the fields.
pub fn physical_values(file: &[u8], block: usize, scheme: Scheme) -> Box<dyn Fn(u16) -> f32> {
    let at = |index: usize| block + 2 * (index - 1);
    let i16_of = |index: usize| i16::from_be_bytes([file[at(index)], file[at(index) + 1]]);
    let f32_of = |from: usize| f32::from_be_bytes(file[from..from + 4].try_into().unwrap());
    match scheme {
        Scheme::Halfword => {
            let (minimum, step) = (i16_of(22) as f32 / 10.0, i16_of(23) as f32 / 10.0);
            Box::new(move |code| linear(code, 2, None, minimum, step))
        }
        Scheme::Float => {
            let (scale, offset) = (f32_of(at(22)), f32_of(at(24)));
            let (minimum, step) = ((2.0 - offset) / scale, 1.0 / scale);
            Box::new(move |code| linear(code, 2, None, minimum, step))
        }
        Scheme::Precip(factor) => {
            let (scale, offset) = (f32_of(at(22)), f32_of(at(24)));
            let (step, zero_point) = (factor / scale, (-offset * factor) / scale);
            let (floor, ceiling) = valid_codes(file, block);
            let minimum = floor as f32 * step + zero_point;
            Box::new(move |code| linear(code, floor, ceiling, minimum, step))
        }
        Scheme::Legacy(post_scale) => {
            let pairs = file[at(22)..at(22) + 32].to_vec();
            Box::new(move |code| level(pairs[2 * code as usize], pairs[2 * code as usize + 1], post_scale))
        }
        Scheme::Class => Box::new(|code| if code == 0 { f32::NAN } else { code as f32 }),
    }
}

/// The floor and the ceiling, if there is one, of the precipitation family.
pub fn valid_codes(file: &[u8], block: usize) -> (u16, Option<u16>) {
    let field = |index: usize| u16_at(file, block + 2 * (index - 1)) as u16;
    let (largest, leading, trailing) = (i32::from(field(27)), field(28) as i16, field(29) as i16);
    if (0..=8).contains(&leading) && (0..=8).contains(&trailing) && largest != 0 {
        (leading as u16, Some((largest - i32::from(trailing)).max(0) as u16))
    } else {
        (1, None)
    }
}

/// Whether a code is from the floor up to the ceiling, if there is one.
pub fn is_valid(code: u16, (floor, ceiling): (u16, Option<u16>)) -> bool {
    code >= floor && ceiling.is_none_or(|c| code <= c)
}

/// Document 02, M-105: how many codes from 0 to 65,535 are valid.
pub fn level_count(file: &[u8], block: usize) -> u32 {
    let bounds = valid_codes(file, block);
    (0..=u16::MAX).map(|code| u32::from(is_valid(code, bounds))).sum()
}

fn linear(code: u16, floor: u16, ceiling: Option<u16>, minimum: f32, step: f32) -> f32 {
    if !is_valid(code, (floor, ceiling)) {
        return f32::NAN;
    }
    minimum + (code - floor) as f32 * step
}

fn level(flag: u8, value: u8, post_scale: f32) -> f32 {
    if flag & 0x80 != 0 {
        return f32::NAN;
    }
    let sign = if flag & 0x01 != 0 { -1.0 } else { 1.0 };
    let scale: f32 = match flag {
        f if f & 0x40 != 0 => 1.0 / 100.0,
        f if f & 0x10 != 0 => 1.0 / 10.0,
        f if f & 0x20 != 0 => 1.0 / 20.0,
        _ => 1.0,
    };
    value as f32 * sign * scale * post_scale
}

/// Where each radial's data stand and, of an accepted body, its unread bytes.
pub struct Layout {
    pub packet: Packet,
    pub bins: usize,
    pub data: Vec<Range<usize>>,
    pub unread: Vec<Range<usize>>,
}

fn u16_at(body: &[u8], at: usize) -> usize {
    u16::from_be_bytes([body[at], body[at + 1]]) as usize
}

fn u32_at(body: &[u8], at: usize) -> usize {
    u32::from_be_bytes(body[at..at + 4].try_into().unwrap()) as usize
}

/// The layout of an accepted body, or of one that is refused at a radial or later: then the radials from the first on that are there.
pub fn layout(body: &[u8]) -> Layout {
    match u16_at(body, 16) {
        16 => radial_layout(body, Packet::P16),
        28 => generic_layout(body),
        _ => radial_layout(body, Packet::Af1f),
    }
}

fn radial_layout(body: &[u8], packet: Packet) -> Layout {
    let mut unread = vec![4..16, 22..26];
    if packet == Packet::Af1f {
        unread.push(18..20);
    }
    let mut data = vec![];
    let mut at = 30;
    for _ in 0..u16_at(body, 28) {
        if at + 6 > body.len() {
            break;
        }
        let count = u16_at(body, at) * if packet == Packet::Af1f { 2 } else { 1 };
        if at + 6 + count > body.len() {
            break;
        }
        data.push(at + 6..at + 6 + count);
        at += 6 + count;
    }
    unread.push(at..body.len());
    Layout { packet, bins: u16_at(body, 20), data, unread }
}

/// Document 02, M-100: the centres of an accepted body of packet 16 or AF1F in degrees, each from its radial's start and width.
pub fn centres(body: &[u8]) -> Vec<f64> {
    let prefixes = layout(body).data.into_iter().map(|data| &body[data.start - 6..data.start]);
    prefixes.map(|prefix| ((2 * u16_at(prefix, 2) + u16_at(prefix, 4)) % 7200) as f64 / 20.0).collect()
}

/// A walk over the items of a packet 28 payload, to the first that is not there.
struct Items<'a> {
    /// Up to the payload's end.
    body: &'a [u8],
    at: usize,
    layout: Layout,
}

impl Items<'_> {
    fn words(&mut self, count: usize) -> Option<Range<usize>> {
        let range = self.at..self.at + 4 * count;
        self.body.get(range.clone())?;
        self.at = range.end;
        Some(range)
    }

    /// A number that is read: a length, a count, the component's type, gate figures, an azimuth, a width.
    fn word(&mut self) -> Option<usize> {
        self.words(1).map(|range| u32_at(self.body, range.start))
    }

    fn unread_words(&mut self, count: usize) -> Option<()> {
        let range = self.words(count)?;
        self.layout.unread.push(range);
        Some(())
    }

    fn string(&mut self) -> Option<()> {
        let len = self.word()?;
        self.unread_words(len.div_ceil(4))
    }

    /// A list: its count, a pointer, and the elements with a pointer between them.
    fn list(&mut self, element: fn(&mut Self) -> Option<()>) -> Option<()> {
        let count = (self.word()? as u32 as i32).max(0);
        self.unread_words(1)?;
        for i in 0..count {
            element(self)?;
            if i + 1 < count {
                self.unread_words(1)?;
            }
        }
        Some(())
    }

    fn parameters(&mut self) -> Option<()> {
        self.list(|items| {
            items.string()?;
            items.string()
        })
    }

    fn product(&mut self) -> Option<()> {
        self.string()?; // name
        self.string()?; // description
        self.unread_words(3)?; // code, type, time
        self.string()?; // radar
        self.unread_words(12)?; // from latitude to the size before packing
        self.parameters()?;
        self.list(Items::component)
    }

    fn component(&mut self) -> Option<()> {
        if self.word()? != 1 {
            return None; // no radial follows
        }
        self.string()?; // description
        self.word()?; // gate width
        self.word()?; // first gate
        self.parameters()?;
        for _ in 0..self.word()? {
            self.word()?; // azimuth
            self.unread_words(1)?; // elevation
            self.word()?; // width
            self.layout.bins = self.word()?;
            self.string()?; // attributes
            let count = self.word()?;
            let data = self.words(count)?;
            self.layout.data.push(data);
        }
        Some(())
    }
}

fn generic_layout(body: &[u8]) -> Layout {
    let end = 24 + u32_at(body, 20);
    let layout = Layout { packet: Packet::P28, bins: 0, data: vec![], unread: vec![4..16, 18..20, end..body.len()] };
    let mut items = Items { body: &body[..end], at: 24, layout };
    // of an accepted body all is there
    items.product();
    items.layout
}

/// The row that a radial's data make, or the refusal that names the radial.
pub fn row(packet: Packet, bins: usize, radial: usize, data: &[u8]) -> Result<Vec<u16>, Refusal> {
    match packet {
        Packet::P16 => Ok(data[..bins].iter().map(|b| *b as u16).collect()),
        Packet::Af1f => {
            // every prefix of the run lengths, with its sum; the greatest not over bins must be bins
            let lengths = data.iter().map(|b| (b >> 4) as usize);
            let sums = lengths.scan(0, |sum, n| {
                *sum += n;
                Some(*sum)
            });
            let greatest = sums.filter(|s| *s <= bins).max().unwrap_or(0);
            if greatest != bins {
                return Err(Refusal::new(22, &[radial as i128, greatest as i128, bins as i128]));
            }
            let cells = data.iter().flat_map(|b| std::iter::repeat_n((b & 15) as u16, (b >> 4) as usize));
            Ok(cells.take(bins).collect())
        }
        Packet::P28 => {
            let levels = data.chunks(4).map(|w| i32::from_be_bytes(w.try_into().unwrap()));
            let codes = levels.enumerate().map(|(gate, n)| u16::try_from(n).map_err(|_| (gate, n)));
            codes.collect::<Result<_, _>>().map_err(|(gate, n)| Refusal::new(34, &[radial as i128, gate as i128, n as i128]))
        }
    }
}

/// Document 02, M-101: the body with a row where a radial's data make none, all else as it was, and which radials these are. In AF1F
/// the count and what it covers become runs of n_bins cells; in packet 28 the integers that are no codes become 0. The head and, in
/// packet 28, the payload's length must have passed.
pub fn mended(body: &[u8]) -> (Vec<u8>, Vec<usize>) {
    let Layout { packet, bins, data, .. } = layout(body);
    let gaps: Vec<usize> =
        (0..data.len()).filter(|radial| row(packet, bins, *radial, &body[data[*radial].clone()]).is_err()).collect();
    let mut mended = body.to_vec();
    // from the last on: the places before a radial stay
    for data in gaps.iter().rev().map(|radial| data[*radial].clone()) {
        if packet == Packet::Af1f {
            let runs = runs_of(bins);
            mended[data.start - 6..data.start - 4].copy_from_slice(&(runs.len() as u16 / 2).to_be_bytes());
            mended.splice(data, runs);
        } else {
            mended[data].chunks_mut(4).filter(|word| word[..2] != [0, 0]).for_each(|word| word.fill(0));
        }
    }
    (mended, gaps)
}

/// Runs of so many cells of colour 0, an even number of bytes.
fn runs_of(bins: usize) -> Vec<u8> {
    let mut runs = vec![0xf0; bins / 15];
    runs.push((bins % 15 * 16) as u8);
    runs.resize(runs.len().next_multiple_of(2), 0);
    runs
}

/// A body of packet 16 or AF1F, long enough for its header, that says no radials.
pub fn has_no_radials(body: &[u8]) -> bool {
    body.len() >= 30 && matches!(u16_at(body, 16), 16 | 0xaf1f) && u16_at(body, 28) == 0
}

/// Document 02, M-107: one with bins at or above 1.
pub fn is_clear(body: &[u8]) -> bool {
    has_no_radials(body) && u16_at(body, 20) > 0
}

/// The bytes that such a body is read by; AF1F's first bin is unread.
pub fn clear_reads(body: &[u8]) -> Vec<Range<usize>> {
    let mut reads = vec![0..4, 16..18, 20..22, 26..30];
    if u16_at(body, 16) == 16 {
        reads.push(18..20);
    }
    reads
}

/// A clear scan with one good radial in place of none and nothing after it: the other checks look at nothing that differs.
pub fn with_a_row(body: &[u8]) -> Vec<u8> {
    let bins = u16_at(body, 20);
    let (unit, data) = if u16_at(body, 16) == 16 { (1, vec![0; bins]) } else { (2, runs_of(bins)) };
    let radial = [1, (data.len() / unit) as u16, 0, 10].map(u16::to_be_bytes).concat();
    [&body[..28], &radial, &data].concat()
}

/// The picture without its rows.
pub fn without_rows(picture: &mut Picture) {
    (picture.radials, picture.azimuths, picture.codes) = (0, vec![], vec![]);
}

/// A gap's row: code 0, and NaN whatever value code 0 has.
pub fn make_gap(sweep: &mut Sweep, radial: usize) {
    let bins = sweep.picture.bins;
    let cells = radial * bins..(radial + 1) * bins;
    sweep.picture.codes[cells.clone()].fill(0);
    sweep.physical[cells].fill(f32::NAN);
}

/// How many days a month has by the Gregorian rule: of the years that end a century every fourth alone has a 29 February.
pub fn month_length(year: u16, month: u8) -> u16 {
    match month {
        4 | 6 | 9 | 11 => 30,
        2 if year.is_multiple_of(if year.is_multiple_of(100) { 400 } else { 4 }) => 29,
        2 => 28,
        _ => 31,
    }
}

/// Document 02, M-102: the date of a day number, by counting off the months from January 1970 on, whose first day is day 1.
pub fn date(days: u16) -> Result<Date, Refusal> {
    if days == 0 {
        return Err(Refusal::new(4, &[0, 0]));
    }
    let (mut year, mut month, mut day) = (1970, 1, days);
    while day > month_length(year, month) {
        day -= month_length(year, month);
        (year, month) = if month == 12 { (year + 1, 1) } else { (year, month + 1) };
    }
    Ok(Date { year, month, day: day as u8 })
}

/// Document 02, M-106: the charge for a total and its remainder: the part of the total inside each band times its rate, added, divided
/// by 1,000 once. A band reaches from the end before it, the first from 0.
pub fn charge(total: u64, ends: &[u64], rates: &[u32]) -> Result<Answer, Refusal> {
    let well_formed = (1..=8).contains(&ends.len())
        && rates.len() == ends.len()
        && ends.is_sorted_by(|end, next| end < next)
        && ends.last().is_some_and(|last| *last >= 1 << 40)
        && rates.iter().all(|rate| *rate <= 65_535);
    if !well_formed {
        return Err(Refusal::new(40, &[]));
    }
    if total > 1 << 40 {
        return Err(Refusal::new(41, &[]));
    }
    let starts = [0].iter().chain(ends);
    let parts = starts.zip(ends).map(|(start, end)| u128::from(total.clamp(*start, *end) - start));
    let sum: u128 = parts.zip(rates).map(|(part, rate)| part * u128::from(*rate)).sum();
    Ok(Answer::Charge { charge: sum / 1000, remainder: sum % 1000 })
}
