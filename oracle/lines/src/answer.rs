//! One answer: what a reading gives, when two are equal, and its line.
use crate::case::Scheme;
use crate::text::{array, bits32, bits64, hex, list};
use std::fmt::{Display, Formatter, Result};

/// A refusal: its number in document 01's table, which document 02 goes on with, and the numbers it carries, whole ones in the order of the Rust's error.
/// 23 starts with the item's place in `ITEMS`, 36 with the buffer's in `BUFFERS`.
#[derive(Debug, Clone, Copy)]
pub struct Refusal {
    pub number: u32,
    pub ints: [i128; 4],
    pub float: f32,
}

pub const ITEMS: [&str; 7] = ["int", "uint", "float", "string_body", "padding", "array_body", "packet_body"];
pub const BUFFERS: [&str; 6] = ["azimuths", "codes", "physical", "marks", "totals", "output"];

/// The moments of the products, after the Rust, and their units.
pub const MOMENTS: [&str; 10] = ["DBZH", "VRADH", "WRADH", "SRMV", "ZDR", "RHOHV", "KDP", "HCLASS", "ACCUM", "RATE"];
pub const UNITS: [&str; 8] = ["dBZ", "m/s", "dB", "ratio", "deg/km", "class", "mm", "mm/h"];

/// The table's names, from 1.
pub const NAMES: [&str; 46] = [
    "NoAwipsToken",
    "NoMessageHeader",
    "PdbFieldOutOfBounds",
    "ImplausibleScanTime",
    "ScanTimeTooFarAhead",
    "ClockOutOfRange",
    "NonFiniteScale",
    "NonFiniteOffset",
    "NonPositiveIncrement",
    "SchemeMismatch",
    "UnexpectedTrailingBytes",
    "SymbologyTruncated",
    "BadSymbologyHeader",
    "UnsupportedPacketCode",
    "EmptySweep",
    "GridTooLarge",
    "NonZeroFirstBin",
    "AllocationExceedsBody",
    "TruncatedAtRadial",
    "ImplausibleRadialWidth",
    "RadialByteCountMismatch",
    "RleExpansionMismatch",
    "XdrTruncated",
    "XdrStringTooLong",
    "XdrArrayTooLong",
    "XdrListTooLong",
    "UnsupportedXdrComponent",
    "UnexpectedXdrComponentCount",
    "NonPositiveXdrGeometry",
    "ImplausibleXdrRadialCount",
    "XdrRadialBinCountMismatch",
    "XdrRadialDataLengthMismatch",
    "XdrGridTooLarge",
    "XdrRawLevelOutOfRange",
    "XdrTrailingBytes",
    "BufferTooShort",
    "PlanMalformed",
    "FieldRepeated",
    "StripOutside",
    "TariffMalformed",
    "TotalTooLarge",
    "RowTooLong",
    "DifferentSweeps",
    "RowsDisagree",
    "SurplusInRow",
    "SurplusAfterRadials",
];

#[derive(Debug, Clone, Copy, PartialEq, Eq)]
pub enum Packet {
    P16,
    Af1f,
    P28,
}

#[derive(Debug, Clone, Copy)]
pub enum Geometry {
    RangeScale(u16),
    Gates { width: f32, first: f32 },
}

#[derive(Debug, Clone)]
pub struct Picture {
    pub packet: Packet,
    pub radials: usize,
    pub bins: usize,
    pub geometry: Geometry,
    pub azimuths: Vec<f64>,
    pub codes: Vec<u16>,
}

#[derive(Debug, Clone, Copy)]
pub struct Fields {
    pub latitude: f64,
    pub longitude: f64,
    pub height: f64,
    pub product_code: i16,
    pub vcp: u16,
    pub days: u16,
    pub seconds: i32,
    pub elevation: f64,
}

#[derive(Debug, Clone, Copy)]
pub struct Scale {
    pub minimum: f32,
    pub step: f32,
    pub levels: u32,
    pub floor: u8,
}

#[derive(Debug, Clone)]
pub struct Sweep {
    pub token: [u8; 6],
    pub fields: Fields,
    pub time: i64,
    pub scale: Option<Scale>,
    pub picture: Picture,
    pub physical: Vec<f32>,
}

#[derive(Debug, Clone, Copy, PartialEq, Eq)]
pub struct Date {
    pub year: u16,
    pub month: u8,
    pub day: u8,
}

/// What the products of a message code are. The gate length is in metres, where the code fixes it.
#[derive(Debug, Clone, Copy)]
pub struct Product {
    pub scheme: Scheme,
    pub moment: &'static str,
    pub unit: &'static str,
    pub gate: Option<u16>,
    pub elevation: bool,
}

/// One XDR item. A string that is not ASCII is `Text(None)`: it is not compared.
#[derive(Debug, Clone)]
pub enum Item {
    Int(i32),
    Uint(u32),
    Float(f32),
    Text(Option<Vec<u8>>),
    Array(Vec<i32>),
    List(usize),
}

/// An item that a cursor read, or the refusal, and the position after it.
#[derive(Debug, Clone)]
pub struct Each {
    pub item: std::result::Result<Item, Refusal>,
    pub position: usize,
}

#[derive(Debug, Clone)]
pub enum Answer {
    Refused(Refusal),
    Sweep(Box<Sweep>),
    /// A gap reading, or two merged: a mark for each radial, 1 where the row is a gap.
    Gaps(Box<Sweep>, Vec<u8>),
    /// A sweep and a total for each field of the plan.
    Totals(Box<Sweep>, Vec<u64>),
    Picture(Box<Picture>),
    Token([u8; 6]),
    Number(i128),
    Date(Date),
    Pair(f32, f32),
    Fields(Fields),
    Scaling {
        minimum: f32,
        step: f32,
        levels: u16,
    },
    Precip {
        minimum: f32,
        step: f32,
        floor: u8,
        ceiling: Option<u32>,
    },
    Thresholds([u8; 32]),
    Levels([f32; 16]),
    Accepted,
    Codes(Vec<u16>),
    /// None of a code that is not known.
    Product(Option<Product>),
    /// The name of a refusal.
    Name(Vec<u8>),
    Xdr {
        items: Vec<Item>,
        refusal: Option<Refusal>,
        position: usize,
    },
    /// Each item or its refusal with the position after it, and the bytes left.
    Each {
        reads: Vec<Each>,
        left: usize,
    },
    Charge {
        charge: u128,
        remainder: u128,
    },
    /// The bytes of an export.
    Written(Vec<u8>),
    /// The number's bytes are not there.
    Nothing,
    /// The Rust overflowed: outside its domain only.
    Panic,
    /// The Rust has no such reading.
    Absent,
}

pub fn same_f32(a: f32, b: f32) -> bool {
    a.to_bits() == b.to_bits() || (a.is_nan() && b.is_nan())
}

pub fn same_f64(a: f64, b: f64) -> bool {
    a.to_bits() == b.to_bits() || (a.is_nan() && b.is_nan())
}

fn same_all<T: Copy>(a: &[T], b: &[T], same: impl Fn(T, T) -> bool) -> bool {
    a.len() == b.len() && a.iter().zip(b).all(|(x, y)| same(*x, *y))
}

impl Refusal {
    pub fn new(number: u32, ints: &[i128]) -> Refusal {
        Refusal::with(number, ints, 0.0)
    }

    pub fn with(number: u32, ints: &[i128], float: f32) -> Refusal {
        let mut four = [0; 4];
        four[..ints.len()].copy_from_slice(ints);
        Refusal { number, ints: four, float }
    }

    /// How many whole numbers and how many floats a refusal carries.
    pub fn shape(number: u32) -> (usize, usize) {
        match number {
            7..=9 => (0, 1),
            20 => (1, 1),
            3 | 5 | 11 | 12 | 14 | 17 | 27 | 28 | 35..=39 | 44 | 45 => (1, 0),
            4 | 13 | 15 | 19 | 24 | 25 | 26 | 29 | 30 => (2, 0),
            21 | 22 | 23 | 31 | 32 | 34 => (3, 0),
            16 | 18 | 33 => (4, 0),
            _ => (0, 0),
        }
    }

    pub fn same(&self, other: &Refusal) -> bool {
        let (ints, floats) = Refusal::shape(self.number);
        self.number == other.number
            && self.ints[..ints] == other.ints[..ints]
            && (floats == 0 || same_f32(self.float, other.float))
    }
}

impl Packet {
    pub const ALL: [Packet; 3] = [Packet::P16, Packet::Af1f, Packet::P28];

    pub fn name(self) -> &'static str {
        ["16", "AF1F", "28"][self as usize]
    }
}

impl Geometry {
    fn same(&self, other: &Geometry) -> bool {
        match (self, other) {
            (Geometry::RangeScale(a), Geometry::RangeScale(b)) => a == b,
            (Geometry::Gates { width: a, first: b }, Geometry::Gates { width: c, first: d }) => {
                same_f32(*a, *c) && same_f32(*b, *d)
            }
            _ => false,
        }
    }
}

impl Picture {
    pub fn same(&self, other: &Picture) -> bool {
        (self.packet, self.radials, self.bins) == (other.packet, other.radials, other.bins)
            && self.geometry.same(&other.geometry)
            && same_all(&self.azimuths, &other.azimuths, same_f64)
            && self.codes == other.codes
    }
}

impl Fields {
    pub fn same(&self, other: &Fields) -> bool {
        same_f64(self.latitude, other.latitude)
            && same_f64(self.longitude, other.longitude)
            && same_f64(self.height, other.height)
            && same_f64(self.elevation, other.elevation)
            && (self.product_code, self.vcp, self.days, self.seconds)
                == (other.product_code, other.vcp, other.days, other.seconds)
    }
}

impl Scale {
    pub fn same(&self, other: &Scale) -> bool {
        same_f32(self.minimum, other.minimum)
            && same_f32(self.step, other.step)
            && (self.levels, self.floor) == (other.levels, other.floor)
    }
}

impl Sweep {
    pub fn same(&self, other: &Sweep) -> bool {
        let scale = match (&self.scale, &other.scale) {
            (None, None) => true,
            (Some(a), Some(b)) => a.same(b),
            _ => false,
        };
        scale
            && self.token == other.token
            && self.fields.same(&other.fields)
            && self.time == other.time
            && self.picture.same(&other.picture)
            && same_all(&self.physical, &other.physical, same_f32)
    }
}

impl Product {
    fn same(&self, other: &Product) -> bool {
        self.scheme.index() == other.scheme.index()
            && self.scheme.parameter().to_bits() == other.scheme.parameter().to_bits()
            && (self.moment, self.unit, self.gate, self.elevation) == (other.moment, other.unit, other.gate, other.elevation)
    }
}

impl Item {
    pub fn same(&self, other: &Item) -> bool {
        match (self, other) {
            (Item::Int(a), Item::Int(b)) => a == b,
            (Item::Uint(a), Item::Uint(b)) => a == b,
            (Item::Float(a), Item::Float(b)) => same_f32(*a, *b),
            (Item::Text(a), Item::Text(b)) => a.is_none() || b.is_none() || a == b,
            (Item::Array(a), Item::Array(b)) => a == b,
            (Item::List(a), Item::List(b)) => a == b,
            _ => false,
        }
    }
}

impl Each {
    pub fn same(&self, other: &Each) -> bool {
        let items = match (&self.item, &other.item) {
            (Ok(a), Ok(b)) => a.same(b),
            (Err(a), Err(b)) => a.same(b),
            _ => false,
        };
        items && self.position == other.position
    }
}

impl Answer {
    pub fn refusal(&self) -> Option<&Refusal> {
        match self {
            Answer::Refused(r) => Some(r),
            Answer::Xdr { refusal, .. } => refusal.as_ref(),
            Answer::Each { reads, .. } => reads.iter().find_map(|r| r.item.as_ref().err()),
            _ => None,
        }
    }

    /// Equal answers. Two floats are equal if their bits are or both are NaN. A panic equals nothing, nor does an absent answer.
    pub fn same(&self, other: &Answer) -> bool {
        use Answer::*;
        match (self, other) {
            (Refused(a), Refused(b)) => a.same(b),
            (Sweep(a), Sweep(b)) => a.same(b),
            (Gaps(a, c), Gaps(b, d)) => a.same(b) && c == d,
            (Totals(a, c), Totals(b, d)) => a.same(b) && c == d,
            (Picture(a), Picture(b)) => a.same(b),
            (Token(a), Token(b)) => a == b,
            (Number(a), Number(b)) => a == b,
            (Date(a), Date(b)) => a == b,
            (Pair(a, b), Pair(c, d)) => same_f32(*a, *c) && same_f32(*b, *d),
            (Fields(a), Fields(b)) => a.same(b),
            (Scaling { minimum: a, step: b, levels: c }, Scaling { minimum: d, step: e, levels: f }) => {
                same_f32(*a, *d) && same_f32(*b, *e) && c == f
            }
            (Precip { minimum: a, step: b, floor: c, ceiling: d }, Precip { minimum: e, step: f, floor: g, ceiling: h }) => {
                same_f32(*a, *e) && same_f32(*b, *f) && (c, d) == (g, h)
            }
            (Thresholds(a), Thresholds(b)) => a == b,
            (Levels(a), Levels(b)) => same_all(a, b, same_f32),
            (Accepted, Accepted) => true,
            (Codes(a), Codes(b)) => a == b,
            (Product(None), Product(None)) => true,
            (Product(Some(a)), Product(Some(b))) => a.same(b),
            (Name(a), Name(b)) => a == b,
            (Xdr { items: a, refusal: b, position: c }, Xdr { items: d, refusal: e, position: f }) => {
                let refusals = match (b, e) {
                    (None, None) => true,
                    (Some(b), Some(e)) => b.same(e),
                    _ => false,
                };
                refusals && c == f && a.len() == d.len() && a.iter().zip(d).all(|(x, y)| x.same(y))
            }
            (Each { reads: a, left: b }, Each { reads: c, left: d }) => {
                b == d && a.len() == c.len() && a.iter().zip(c).all(|(x, y)| x.same(y))
            }
            (Charge { charge: a, remainder: b }, Charge { charge: c, remainder: d }) => (a, b) == (c, d),
            (Written(a), Written(b)) => a == b,
            (Nothing, Nothing) => true,
            _ => false,
        }
    }
}

impl Display for Refusal {
    fn fmt(&self, f: &mut Formatter) -> Result {
        let (ints, floats) = Refusal::shape(self.number);
        let words: &[&str] = match self.number {
            23 => &ITEMS,
            36 => &BUFFERS,
            _ => &[],
        };
        write!(f, "R {}", self.number)?;
        for (k, n) in self.ints[..ints].iter().enumerate() {
            match words.get(*n as usize) {
                Some(word) if k == 0 => write!(f, " {word}")?,
                _ => write!(f, " {n}")?,
            }
        }
        if floats == 1 {
            write!(f, " f{:08x}", bits32(self.float))?;
        }
        Ok(())
    }
}

impl Display for Picture {
    fn fmt(&self, f: &mut Formatter) -> Result {
        let cells = self.radials * self.bins;
        write!(f, "packet={} nr={} nb={} ", self.packet.name(), self.radials, self.bins)?;
        match self.geometry {
            Geometry::RangeScale(r) => write!(f, "rs={r}")?,
            Geometry::Gates { width, first } => write!(f, "gw={:08x} fg={:08x}", bits32(width), bits32(first))?,
        }
        write!(
            f,
            " az={} codes={}",
            array(self.azimuths.iter().map(|x| bits64(*x).to_be_bytes()), cells),
            array(self.codes.iter().map(|x| x.to_be_bytes()), cells)
        )
    }
}

impl Display for Fields {
    fn fmt(&self, f: &mut Formatter) -> Result {
        write!(
            f,
            "lat={:016x} lon={:016x} h={:016x} pc={} vcp={} days={} secs={} el={:016x}",
            bits64(self.latitude),
            bits64(self.longitude),
            bits64(self.height),
            self.product_code,
            self.vcp,
            self.days,
            self.seconds,
            bits64(self.elevation)
        )
    }
}

impl Display for Sweep {
    fn fmt(&self, f: &mut Formatter) -> Result {
        let scale = match &self.scale {
            None => "none".to_string(),
            Some(s) => format!("{:08x},{:08x},{},{}", bits32(s.minimum), bits32(s.step), s.levels, s.floor),
        };
        let physical = self.physical.iter().map(|x| bits32(*x).to_be_bytes());
        write!(
            f,
            "tok={} {} time={} scale={scale} {} phys={}",
            self.token.escape_ascii(),
            self.fields,
            self.time,
            self.picture,
            array(physical, self.picture.radials * self.picture.bins)
        )
    }
}

impl Display for Product {
    fn fmt(&self, f: &mut Formatter) -> Result {
        let Product { scheme, moment, unit, gate, elevation } = self;
        let gate = gate.map_or("-".to_string(), |metres| metres.to_string());
        let elevation = *elevation as u8;
        write!(f, "scheme={} moment={moment} unit={unit} gate={gate} elevation={elevation}", scheme.text())
    }
}

impl Display for Item {
    fn fmt(&self, f: &mut Formatter) -> Result {
        match self {
            Item::Int(n) => write!(f, "i{n}"),
            Item::Uint(n) => write!(f, "u{n}"),
            Item::Float(x) => write!(f, "f{:08x}", bits32(*x)),
            Item::Text(None) => write!(f, "s?"),
            Item::Text(Some(s)) => write!(f, "s{}", hex(s)),
            Item::Array(a) => write!(f, "a{}", a.iter().map(i32::to_string).collect::<Vec<_>>().join(",")),
            Item::List(n) => write!(f, "l{n}"),
        }
    }
}

/// The part of an answer line after the case's name.
impl Display for Answer {
    fn fmt(&self, f: &mut Formatter) -> Result {
        match self {
            Answer::Refused(r) => write!(f, "{r}"),
            Answer::Sweep(s) => write!(f, "A {s}"),
            Answer::Gaps(s, marks) => {
                let cells = s.picture.radials * s.picture.bins;
                write!(f, "A {s} marks={}", array(marks.iter().map(|m| [*m]), cells))
            }
            Answer::Totals(s, totals) => write!(f, "A {s} totals={}", list(totals)),
            Answer::Picture(p) => write!(f, "A {p}"),
            Answer::Token(t) => write!(f, "A {} {}", t[..3].escape_ascii(), t[3..].escape_ascii()),
            Answer::Number(n) => write!(f, "A {n}"),
            Answer::Date(Date { year, month, day }) => write!(f, "A {year} {month} {day}"),
            Answer::Pair(a, b) => write!(f, "A f{:08x} f{:08x}", bits32(*a), bits32(*b)),
            Answer::Fields(p) => write!(f, "A {p}"),
            Answer::Scaling { minimum, step, levels } => {
                write!(f, "A f{:08x} f{:08x} {levels}", bits32(*minimum), bits32(*step))
            }
            Answer::Precip { minimum, step, floor, ceiling } => {
                let ceiling = ceiling.map_or("none".to_string(), |c| c.to_string());
                write!(f, "A f{:08x} f{:08x} {floor} {ceiling}", bits32(*minimum), bits32(*step))
            }
            Answer::Thresholds(t) => write!(f, "A {}", hex(t)),
            Answer::Levels(l) => {
                write!(f, "A {}", l.map(|x| format!("{:08x}", bits32(x))).join(" "))
            }
            Answer::Accepted => write!(f, "A"),
            Answer::Codes(c) => write!(f, "A {c:?}"),
            Answer::Product(None) => write!(f, "A unknown"),
            Answer::Product(Some(product)) => write!(f, "A {product}"),
            Answer::Name(name) => write!(f, "A {}", name.escape_ascii()),
            Answer::Xdr { items, refusal, position } => {
                write!(f, "X")?;
                for item in items {
                    write!(f, " {item}")?;
                }
                if let Some(r) = refusal {
                    write!(f, " {r}")?;
                }
                write!(f, " pos={position}")
            }
            Answer::Each { reads, left } => {
                write!(f, "E")?;
                for read in reads {
                    match &read.item {
                        Ok(item) => write!(f, " {item}")?,
                        Err(refusal) => write!(f, " {refusal}")?,
                    }
                    write!(f, " pos={}", read.position)?;
                }
                write!(f, " left={left}")
            }
            Answer::Charge { charge, remainder } => write!(f, "A {charge} {remainder}"),
            Answer::Written(bytes) => {
                write!(f, "A {} {}", bytes.len(), array(bytes.iter().map(|b| [*b]), bytes.len()))
            }
            Answer::Nothing => write!(f, "N"),
            Answer::Panic => write!(f, "PANIC"),
            Answer::Absent => write!(f, "? not in the Rust"),
        }
    }
}
