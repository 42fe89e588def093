//! One case: which reading, and its inputs.
use crate::text::{hex, list, unhex};

#[derive(Debug, Clone, Copy, PartialEq)]
pub enum Scheme {
    Halfword,
    Float,
    Precip(f32),
    Legacy(f32),
    Class,
}

/// The lengths of the lent buffers.
#[derive(Debug, Clone, Copy, PartialEq, Eq)]
pub struct Lent {
    pub azimuths: usize,
    pub codes: usize,
    pub physical: usize,
}

#[derive(Debug, Clone, Copy, PartialEq, Eq)]
pub enum FieldKind {
    I16,
    U16,
    I32,
    Pair,
}

#[derive(Debug, Clone, PartialEq)]
pub enum Case {
    Sweep {
        clock: i128,
        scheme: Scheme,
        lent: Lent,
        file: Vec<u8>,
        body: Vec<u8>,
    },
    /// The reading by the archive profile: a sweep's input.
    Strict {
        clock: i128,
        scheme: Scheme,
        lent: Lent,
        file: Vec<u8>,
        body: Vec<u8>,
    },
    /// The gap reading: a sweep's input, and how many marks are lent.
    Gaps {
        clock: i128,
        scheme: Scheme,
        lent: Lent,
        marks: usize,
        file: Vec<u8>,
        body: Vec<u8>,
    },
    /// Two receptions: a gap reading's input, and the second body.
    Merge {
        clock: i128,
        scheme: Scheme,
        lent: Lent,
        marks: usize,
        file: Vec<u8>,
        body: Vec<u8>,
        second: Vec<u8>,
    },
    /// A field plan: a sweep's input, how many totals are lent, and the plan.
    Plan {
        clock: i128,
        scheme: Scheme,
        lent: Lent,
        totals: usize,
        file: Vec<u8>,
        body: Vec<u8>,
        plan: Vec<u8>,
    },
    Sym {
        body: Vec<u8>,
    },
    /// The export of a body to packet 16, and how many bytes are lent for it.
    Export {
        out: usize,
        body: Vec<u8>,
    },
    Token {
        file: Vec<u8>,
    },
    Mhb {
        file: Vec<u8>,
    },
    Time {
        clock: i128,
        days: u16,
        seconds: i32,
    },
    /// The date of a day number.
    Date {
        days: u16,
    },
    Field {
        file: Vec<u8>,
        block: usize,
        index: usize,
        kind: FieldKind,
    },
    Pdb {
        file: Vec<u8>,
        block: usize,
    },
    Lin {
        file: Vec<u8>,
        block: usize,
    },
    Flt {
        file: Vec<u8>,
        block: usize,
    },
    Prc {
        file: Vec<u8>,
        block: usize,
        factor: f32,
    },
    Thr {
        file: Vec<u8>,
        block: usize,
    },
    Leg {
        thresholds: [u8; 32],
        post_scale: f32,
    },
    Trail {
        bytes: Vec<u8>,
    },
    Known {
        code: i16,
    },
    /// What the products of a message code are.
    Product {
        code: i16,
    },
    /// The name of a refusal, and how many bytes are lent for it.
    Name {
        number: u32,
        places: usize,
    },
    Codes,
    /// Each letter of `ops` is one item read: i u f s a l.
    Xdr {
        ops: String,
        payload: Vec<u8>,
    },
    /// The items of `EACH` one after another with one cursor, after a refusal too.
    Each {
        payload: Vec<u8>,
    },
    /// The charge for a total by a tariff: the bands' upper ends and rates.
    Charge {
        total: u64,
        ends: Vec<u64>,
        rates: Vec<u32>,
    },
    /// A number at an offset. A pair is none.
    Read {
        bytes: Vec<u8>,
        offset: usize,
        kind: FieldKind,
    },
}

/// Int, uint, float, string, array, the head of a list, list of parameters.
pub const EACH: &str = "iufsahl";

impl Lent {
    /// Enough for every accepted sweep: 100,000 radials, 4,000,000 cells.
    pub const MOST: Lent = Lent { azimuths: 100_000, codes: 4_000_000, physical: 4_000_000 };

    /// No more than `MOST`: no answer differs.
    pub fn capped(self) -> Lent {
        Lent {
            azimuths: self.azimuths.min(Lent::MOST.azimuths),
            codes: self.codes.min(Lent::MOST.codes),
            physical: self.physical.min(Lent::MOST.physical),
        }
    }
}

impl Scheme {
    pub const NAMES: [&'static str; 5] = ["halfword", "float", "precipitation", "legacy", "class"];

    pub fn index(self) -> usize {
        match self {
            Scheme::Halfword => 0,
            Scheme::Float => 1,
            Scheme::Precip(_) => 2,
            Scheme::Legacy(_) => 3,
            Scheme::Class => 4,
        }
    }

    pub fn parameter(self) -> f32 {
        match self {
            Scheme::Precip(x) | Scheme::Legacy(x) => x,
            _ => 0.0,
        }
    }

    pub fn of(index: usize, parameter: f32) -> Option<Scheme> {
        Some(match index {
            0 => Scheme::Halfword,
            1 => Scheme::Float,
            2 => Scheme::Precip(parameter),
            3 => Scheme::Legacy(parameter),
            4 => Scheme::Class,
            _ => return None,
        })
    }

    pub(crate) fn text(self) -> String {
        match self {
            Scheme::Halfword => "H".into(),
            Scheme::Float => "F".into(),
            Scheme::Precip(x) => format!("P:{:08x}", x.to_bits()),
            Scheme::Legacy(x) => format!("L:{:08x}", x.to_bits()),
            Scheme::Class => "C".into(),
        }
    }

    fn parse(s: &str) -> Result<Scheme, String> {
        match s.split_once(':') {
            None if s == "H" => Ok(Scheme::Halfword),
            None if s == "F" => Ok(Scheme::Float),
            None if s == "C" => Ok(Scheme::Class),
            Some(("P", h)) => Ok(Scheme::Precip(float(h)?)),
            Some(("L", h)) => Ok(Scheme::Legacy(float(h)?)),
            _ => Err(format!("no scheme is called {s}")),
        }
    }
}

impl FieldKind {
    const NAMES: [(FieldKind, &'static str); 4] =
        [(FieldKind::I16, "i16"), (FieldKind::U16, "u16"), (FieldKind::I32, "i32"), (FieldKind::Pair, "pair")];

    fn text(self) -> &'static str {
        FieldKind::NAMES[self as usize].1
    }

    fn parse(s: &str) -> Result<FieldKind, String> {
        FieldKind::NAMES.iter().find(|k| k.1 == s).map(|k| k.0).ok_or_else(|| format!("no kind of field is called {s}"))
    }
}

fn float(s: &str) -> Result<f32, String> {
    u32::from_str_radix(s, 16).map(f32::from_bits).map_err(|e| format!("{s}: {e}"))
}

fn number<T: std::str::FromStr>(s: &str) -> Result<T, String> {
    s.parse().map_err(|_| format!("{s}: not a number of the kind wanted"))
}

/// Numbers with commas.
fn numbers<T: std::str::FromStr>(s: &str) -> Result<Vec<T>, String> {
    match s {
        "-" => Ok(vec![]),
        _ => s.split(',').map(number).collect(),
    }
}

impl Case {
    /// The first word of the line.
    pub fn kind(&self) -> &'static str {
        match self {
            Case::Sweep { .. } => "sweep",
            Case::Strict { .. } => "strict",
            Case::Gaps { .. } => "gaps",
            Case::Merge { .. } => "merge",
            Case::Plan { .. } => "plan",
            Case::Sym { .. } => "sym",
            Case::Export { .. } => "export",
            Case::Token { .. } => "token",
            Case::Mhb { .. } => "mhb",
            Case::Time { .. } => "time",
            Case::Date { .. } => "date",
            Case::Field { .. } => "field",
            Case::Pdb { .. } => "pdb",
            Case::Lin { .. } => "lin",
            Case::Flt { .. } => "flt",
            Case::Prc { .. } => "prc",
            Case::Thr { .. } => "thr",
            Case::Leg { .. } => "leg",
            Case::Trail { .. } => "trail",
            Case::Known { .. } => "known",
            Case::Product { .. } => "product",
            Case::Name { .. } => "name",
            Case::Codes => "codes",
            Case::Xdr { .. } => "xdr",
            Case::Each { .. } => "each",
            Case::Read { .. } => "read",
            Case::Charge { .. } => "charge",
        }
    }

    /// The reading of a sweep's input by the archive profile.
    pub fn strict(self) -> Case {
        match self {
            Case::Sweep { clock, scheme, lent, file, body } => Case::Strict { clock, scheme, lent, file, body },
            other => other,
        }
    }

    /// The gap reading of a sweep's input.
    pub fn with_marks(self, marks: usize) -> Case {
        match self {
            Case::Sweep { clock, scheme, lent, file, body } => Case::Gaps { clock, scheme, lent, marks, file, body },
            other => other,
        }
    }

    /// A gap reading's input with a second body.
    pub fn with_second(self, second: Vec<u8>) -> Case {
        match self {
            Case::Gaps { clock, scheme, lent, marks, file, body } => {
                Case::Merge { clock, scheme, lent, marks, file, body, second }
            }
            other => other,
        }
    }

    /// A sweep's input with a field plan.
    pub fn with_plan(self, totals: usize, plan: Vec<u8>) -> Case {
        match self {
            Case::Sweep { clock, scheme, lent, file, body } => Case::Plan { clock, scheme, lent, totals, file, body, plan },
            other => other,
        }
    }

    /// The ordinary reading of another reading's input, or of the first of two bodies.
    pub fn ordinary(self) -> Case {
        match self {
            Case::Strict { clock, scheme, lent, file, body }
            | Case::Gaps { clock, scheme, lent, file, body, .. }
            | Case::Merge { clock, scheme, lent, file, body, .. }
            | Case::Plan { clock, scheme, lent, file, body, .. } => Case::Sweep { clock, scheme, lent, file, body },
            other => other,
        }
    }

    /// A case line: the kind, a name, and the inputs.
    pub fn parse(line: &str) -> Result<(String, Case), String> {
        let words: Vec<&str> = line.split_ascii_whitespace().collect();
        let word = |i: usize| words.get(i).copied().ok_or_else(|| format!("word {i} is missing"));
        let bytes = |i: usize| unhex(word(i)?);
        let sweep = |at: usize| {
            Ok::<_, String>(Case::Sweep {
                clock: number(word(2)?)?,
                scheme: Scheme::parse(word(3)?)?,
                lent: Lent { azimuths: number(word(4)?)?, codes: number(word(5)?)?, physical: number(word(6)?)? },
                file: bytes(at)?,
                body: bytes(at + 1)?,
            })
        };
        let case = match word(0)? {
            "sweep" => sweep(7)?,
            "strict" => sweep(7)?.strict(),
            "gaps" => sweep(8)?.with_marks(number(word(7)?)?),
            "merge" => sweep(8)?.with_marks(number(word(7)?)?).with_second(bytes(10)?),
            "plan" => sweep(8)?.with_plan(number(word(7)?)?, bytes(10)?),
            "sym" => Case::Sym { body: bytes(2)? },
            "export" => Case::Export { out: number(word(2)?)?, body: bytes(3)? },
            "token" => Case::Token { file: bytes(2)? },
            "mhb" => Case::Mhb { file: bytes(2)? },
            "time" => Case::Time { clock: number(word(2)?)?, days: number(word(3)?)?, seconds: number(word(4)?)? },
            "date" => Case::Date { days: number(word(2)?)? },
            "field" => Case::Field {
                file: bytes(2)?,
                block: number(word(3)?)?,
                index: number(word(4)?)?,
                kind: FieldKind::parse(word(5)?)?,
            },
            "pdb" => Case::Pdb { file: bytes(2)?, block: number(word(3)?)? },
            "lin" => Case::Lin { file: bytes(2)?, block: number(word(3)?)? },
            "flt" => Case::Flt { file: bytes(2)?, block: number(word(3)?)? },
            "prc" => Case::Prc { file: bytes(2)?, block: number(word(3)?)?, factor: float(word(4)?)? },
            "thr" => Case::Thr { file: bytes(2)?, block: number(word(3)?)? },
            "leg" => {
                Case::Leg { thresholds: bytes(2)?.try_into().map_err(|_| "not 32 bytes")?, post_scale: float(word(3)?)? }
            }
            "trail" => Case::Trail { bytes: bytes(2)? },
            "known" => Case::Known { code: number(word(2)?)? },
            "product" => Case::Product { code: number(word(2)?)? },
            "name" => Case::Name { number: number(word(2)?)?, places: number(word(3)?)? },
            "codes" => Case::Codes,
            "xdr" => {
                let ops = word(2)?.replace('-', "");
                match ops.chars().find(|c| !"iufsal".contains(*c)) {
                    Some(c) => return Err(format!("no XDR item is called {c}")),
                    None => Case::Xdr { ops, payload: bytes(3)? },
                }
            }
            "each" => Case::Each { payload: bytes(2)? },
            "charge" => Case::Charge { total: number(word(2)?)?, ends: numbers(word(3)?)?, rates: numbers(word(4)?)? },
            "read" => match FieldKind::parse(word(4)?)? {
                FieldKind::Pair => return Err("no pair is read".into()),
                kind => Case::Read { bytes: bytes(2)?, offset: number(word(3)?)?, kind },
            },
            kind => return Err(format!("no kind of case is called {kind}")),
        };
        Ok((word(1)?.to_string(), case))
    }

    pub fn line(&self, name: &str) -> String {
        let kind = self.kind();
        let inputs = match self {
            Case::Sweep { clock, scheme, lent, file, body } | Case::Strict { clock, scheme, lent, file, body } => {
                let Lent { azimuths, codes, physical } = lent;
                format!("{clock} {} {azimuths} {codes} {physical} {} {}", scheme.text(), hex(file), hex(body))
            }
            Case::Gaps { clock, scheme, lent, marks, file, body } => {
                let Lent { azimuths, codes, physical } = lent;
                format!("{clock} {} {azimuths} {codes} {physical} {marks} {} {}", scheme.text(), hex(file), hex(body))
            }
            Case::Merge { clock, scheme, lent, marks, file, body, second } => {
                let Lent { azimuths, codes, physical } = lent;
                let places = format!("{azimuths} {codes} {physical} {marks}");
                format!("{clock} {} {places} {} {} {}", scheme.text(), hex(file), hex(body), hex(second))
            }
            Case::Plan { clock, scheme, lent, totals, file, body, plan } => {
                let Lent { azimuths, codes, physical } = lent;
                let places = format!("{azimuths} {codes} {physical} {totals}");
                format!("{clock} {} {places} {} {} {}", scheme.text(), hex(file), hex(body), hex(plan))
            }
            Case::Sym { body } => hex(body),
            Case::Export { out, body } => format!("{out} {}", hex(body)),
            Case::Token { file } | Case::Mhb { file } => hex(file),
            Case::Time { clock, days, seconds } => format!("{clock} {days} {seconds}"),
            Case::Date { days } => days.to_string(),
            Case::Field { file, block, index, kind } => format!("{} {block} {index} {}", hex(file), kind.text()),
            Case::Pdb { file, block }
            | Case::Lin { file, block }
            | Case::Flt { file, block }
            | Case::Thr { file, block } => {
                format!("{} {block}", hex(file))
            }
            Case::Prc { file, block, factor } => format!("{} {block} {:08x}", hex(file), factor.to_bits()),
            Case::Leg { thresholds, post_scale } => format!("{} {:08x}", hex(thresholds), post_scale.to_bits()),
            Case::Trail { bytes } => hex(bytes),
            Case::Known { code } | Case::Product { code } => code.to_string(),
            Case::Name { number, places } => format!("{number} {places}"),
            Case::Codes => return format!("{kind} {name}"),
            Case::Each { payload } => hex(payload),
            Case::Charge { total, ends, rates } => format!("{total} {} {}", list(ends), list(rates)),
            Case::Read { bytes, offset, kind } => format!("{} {offset} {}", hex(bytes), kind.text()),
            Case::Xdr { ops, payload } => format!("{} {}", if ops.is_empty() { "-" } else { ops }, hex(payload)),
        };
        format!("{kind} {name} {inputs}")
    }
}
