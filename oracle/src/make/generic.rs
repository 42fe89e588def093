//! Bodies of packet 28: the generic data packet, its payload in XDR.
use super::body::Body;
use super::Rng;
use lines::Packet;

/// A number of the payload that the reading looks at.
#[derive(Debug, Clone, Copy, PartialEq, Eq)]
pub enum Mark {
    StringLength,
    ParameterCount,
    ComponentCount,
    ComponentType,
    RadialCount,
    Azimuth,
    BinCount,
    ArrayCount,
    Level,
}

use Mark::*;

struct Payload {
    bytes: Vec<u8>,
    ends: Vec<usize>,
    marks: Vec<(Mark, usize)>,
}

impl Payload {
    fn mark(&mut self, mark: Mark) {
        self.marks.push((mark, self.bytes.len()));
    }

    fn word(&mut self, word: u32) {
        self.bytes.extend(word.to_be_bytes());
        self.ends.push(self.bytes.len());
    }

    fn string(&mut self, rng: &mut Rng) {
        let len = match rng.below(400) {
            0 => rng.pick(&[4095, 4096]),
            1..=9 => rng.below(40),
            _ => rng.below(7),
        };
        self.mark(StringLength);
        self.word(len as u32);
        for _ in 0..len {
            self.bytes.push(if rng.one_in(8) { 0 } else { rng.byte() & 0x7f });
        }
        self.ends.push(self.bytes.len());
        while !self.bytes.len().is_multiple_of(4) {
            self.bytes.push(rng.byte());
        }
        self.ends.push(self.bytes.len());
    }

    fn parameters(&mut self, rng: &mut Rng) {
        let count = match rng.below(12) {
            0 => rng.pick(&[-1, i32::MIN]),
            1 | 2 => rng.between(1, 3) as i32,
            _ => 0,
        };
        self.mark(ParameterCount);
        self.word(count as u32);
        self.word(rng.u32());
        for i in 0..count {
            self.string(rng);
            self.string(rng);
            if i + 1 < count {
                self.word(rng.u32());
            }
        }
    }

    fn component(&mut self, rng: &mut Rng, radials: usize, bins: usize) {
        self.mark(ComponentType);
        self.word(1);
        self.string(rng);
        for _ in 0..2 {
            let figure = if rng.one_in(6) { rng.odd_f32() } else { rng.plain_f32() };
            self.word(figure.to_bits());
        }
        self.parameters(rng);
        self.mark(RadialCount);
        self.word(radials as u32);
        for _ in 0..radials {
            self.radial(rng, bins);
        }
    }

    fn radial(&mut self, rng: &mut Rng, bins: usize) {
        self.mark(Azimuth);
        let odd = rng.one_in(8);
        self.word(if odd { rng.odd_f32().to_bits() } else { azimuth(rng).to_bits() });
        self.word(rng.u32());
        self.word(if odd { rng.odd_f32().to_bits() } else { rng.pick(&[1.0f32, 0.5, 0.0, 0.95, 2.0]).to_bits() });
        self.mark(BinCount);
        self.word(bins as u32);
        self.string(rng);
        self.mark(ArrayCount);
        self.word(bins as u32);
        self.mark(Level);
        let highest = rng.pick(&[16, 256, 65_536]);
        for _ in 0..bins {
            self.bytes.extend((rng.below(highest) as u32).to_be_bytes());
        }
        self.ends.push(self.bytes.len());
    }
}

fn azimuth(rng: &mut Rng) -> f32 {
    match rng.below(8) {
        0 => rng.pick(&[0.0, -0.0, 359.5, 360.0, -360.0, -0.25, 720.5, 1.0e9, -1.0e30]),
        1 => rng.plain_f32(),
        _ => rng.below(3600) as f32 / 10.0,
    }
}

/// The first twenty-four bytes and the payload.
fn wrapped(rng: &mut Rng, payload: &[u8]) -> Vec<u8> {
    let mut b = vec![0xff, 0xff, 0, 1];
    b.extend(rng.bytes(12));
    b.extend([0, 28]);
    b.extend(rng.bytes(2));
    b.extend((payload.len() as u32).to_be_bytes());
    b.extend(payload);
    b
}

pub fn body(rng: &mut Rng, radials: usize, bins: usize) -> Body {
    let mut p = Payload { bytes: vec![], ends: vec![], marks: vec![] };
    p.string(rng);
    p.string(rng);
    for _ in 0..3 {
        p.word(rng.u32());
    }
    p.string(rng);
    for _ in 0..12 {
        p.word(rng.u32());
    }
    p.parameters(rng);
    p.mark(ComponentCount);
    p.word(1);
    p.word(rng.u32());
    p.component(rng, radials, bins);
    let mut bytes = wrapped(rng, &p.bytes);
    if rng.one_in(4) {
        let tail = rng.below(12);
        bytes.extend(rng.bytes(tail));
    }
    let mut ends = vec![2, 4, 18, 24];
    ends.extend(p.ends.iter().map(|e| 24 + e));
    let marks = p.marks.iter().map(|(mark, at)| (*mark, 24 + at)).collect();
    Body { bytes, packet: Packet::P28, radials, bins, ends, starts: vec![], marks }
}

/// A body with nothing odd in it, for `bench`.
pub fn bench28(rng: &mut Rng, radials: usize, bins: usize) -> Vec<u8> {
    // empty strings and lists, one component of type 1
    let mut words = vec![0; 20];
    words.extend([1, 0, 1, 0, 250f32.to_bits(), 125f32.to_bits(), 0, 0, radials as u32]);
    for radial in 0..radials {
        words.extend([(radial as f32).to_bits(), 0.5f32.to_bits(), 1f32.to_bits(), bins as u32, 0, bins as u32]);
        words.extend((0..bins).map(|_| rng.u16() as u32));
    }
    let payload: Vec<u8> = words.iter().flat_map(|w| w.to_be_bytes()).collect();
    wrapped(rng, &payload)
}

/// Puts the payload's length at what the body has.
fn fit_length(body: &mut Body) {
    let len = body.bytes.len().saturating_sub(24);
    body.set32(20, len as u32);
}

pub fn damage(rng: &mut Rng, body: &mut Body) {
    let payload = u32::from_be_bytes(body.bytes[20..24].try_into().unwrap()) as usize;
    match rng.below(20) {
        0 => {
            let room = body.bytes.len() - 24;
            let near = rng.jitter(payload) as u32;
            let len = rng.pick(&[u32::MAX, 0x8000_0000, 0x7fff_ffff, 0, 4, room as u32, room as u32 + 1, near]);
            body.set32(20, len);
        }
        1..=3 => {
            // cut near the end of an item, and the payload's length with it
            super::body::cut(rng, body);
            if body.bytes.len() >= 24 {
                fit_length(body);
            }
        }
        4 => {
            // bytes left over in the payload
            body.bytes.truncate(24 + payload);
            let more = rng.between(1, 9);
            body.bytes.extend(rng.bytes(more));
            fit_length(body);
        }
        5 => second_component(rng, body),
        6 => wide_grid(rng, body),
        7 | 8 => number(rng, body, StringLength, &[0, 1, 4, 4096, 4097, 0x7fff_ffff, u32::MAX]),
        9 => number(rng, body, ParameterCount, &[0, 1, 2, 10_000, 10_001, 0x7fff_ffff, 0x8000_0000, u32::MAX]),
        10 => number(rng, body, ComponentCount, &[0, 2, 10_000, 10_001, 0x7fff_ffff, 0x8000_0000, u32::MAX]),
        11 => number(rng, body, ComponentType, &[0, 2, 3, u32::MAX, 0x8000_0001, 0x0100_0001]),
        12 | 13 => number(rng, body, RadialCount, &[0, u32::MAX, 0x8000_0000, 100_000, 100_001, 0x7fff_ffff]),
        14 | 15 => number(rng, body, BinCount, &[0, u32::MAX, 0x8000_0000, 65_536, 0x7fff_ffff]),
        16 => number(rng, body, ArrayCount, &[0, 100_000, 100_001, 0x7fff_ffff, u32::MAX]),
        17 => resized_row(rng, body),
        _ => level(rng, body),
    }
}

/// One of the marked numbers becomes an odd one, or moves by a little.
fn number(rng: &mut Rng, body: &mut Body, mark: Mark, odd: &[u32]) {
    let Some(at) = place(rng, body, mark) else { return };
    let now = u32::from_be_bytes(body.bytes[at..at + 4].try_into().unwrap());
    let value = if rng.one_in(3) { rng.jitter(now as usize) as u32 } else { rng.pick(odd) };
    body.set32(at, value);
    if rng.one_in(6) {
        // and the payload ends here
        body.bytes.truncate(at + 4 + rng.below(4));
        fit_length(body);
    }
}

fn place(rng: &mut Rng, body: &Body, mark: Mark) -> Option<usize> {
    let places: Vec<usize> = body.marks.iter().filter(|m| m.0 == mark).map(|m| m.1).collect();
    if places.is_empty() {
        None
    } else {
        Some(rng.pick(&places))
    }
}

/// A level that is no 16-bit number, or just one.
fn level(rng: &mut Rng, body: &mut Body) {
    let Some(row) = place(rng, body, Level) else { return };
    let gate = rng.below(body.bins);
    let value = rng.pick(&[65_535, 65_536, 65_537, u32::MAX, 0x8000_0000, 0x7fff_ffff, 0x0001_0000, 0xffff_0001]);
    body.set32(row + 4 * gate, value);
}

/// A row with another number of gates: its bins, its array, or both.
fn resized_row(rng: &mut Rng, body: &mut Body) {
    let rows: Vec<usize> = body.marks.iter().filter(|m| m.0 == Level).map(|m| m.1).collect();
    let row = rng.below(rows.len());
    let (data, bins) = (rows[row], body.bins as u32);
    let nth = |mark: Mark, body: &Body| body.marks.iter().filter(|m| m.0 == mark).nth(row).unwrap().1;
    let (array, declared) = (nth(ArrayCount, body), nth(BinCount, body));
    let longer = rng.one_in(2) || bins == 1;
    let count = if longer { bins + 1 } else { bins - 1 };
    body.set32(array, count);
    if rng.one_in(2) {
        body.set32(declared, count);
    }
    if longer {
        body.bytes.splice(data..data, [0, 0, 0, 7]);
    } else {
        body.bytes.drain(data..data + 4);
    }
    fit_length(body);
}

/// A second component: good, or with something wrong in it.
fn second_component(rng: &mut Rng, body: &mut Body) {
    let payload = u32::from_be_bytes(body.bytes[20..24].try_into().unwrap()) as usize;
    body.bytes.truncate(24 + payload);
    let mut more = Payload { bytes: vec![], ends: vec![], marks: vec![] };
    more.word(rng.u32());
    let (radials, bins) = (rng.between(1, 3), rng.between(1, 4));
    more.component(rng, radials, bins);
    let from = body.bytes.len();
    body.bytes.extend(&more.bytes);
    body.marks.extend(more.marks.iter().map(|(mark, at)| (*mark, from + at)));
    let count = body.marks.iter().find(|m| m.0 == ComponentCount).unwrap().1;
    body.set32(count, 2);
    fit_length(body);
    match rng.below(4) {
        0 => {
            let at = body.marks.iter().rfind(|m| m.0 == Level).unwrap().1;
            body.set32(at, 65_536);
        }
        1 => {
            let at = body.marks.iter().rfind(|m| m.0 == ComponentType).unwrap().1;
            body.set32(at, 2);
        }
        2 => body.bytes.truncate(from + rng.below(more.bytes.len())),
        _ => {}
    }
    fit_length(body);
}

/// A first row that makes the grid larger than the cap, or just as large.
fn wide_grid(rng: &mut Rng, body: &mut Body) {
    let bins = rng.pick(&[40, 41, 50, 60]);
    *body = self::body(rng, 1, bins);
    let at = body.marks.iter().find(|m| m.0 == RadialCount).unwrap().1;
    let radials = rng.pick(&[100_000, 97_561, 80_001, 66_667, 80_000]);
    body.set32(at, radials);
    body.radials = 1;
    if rng.one_in(4) {
        level(rng, body);
    }
}
