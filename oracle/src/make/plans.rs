//! Field plans: good ones for a grid, damaged ones, and ones that a law holds to the first.
use super::Rng;
use crate::model::plans::MOST;

#[derive(Debug, Clone, PartialEq, Eq)]
pub enum Record {
    Field(u16),
    /// Radial, first gate, gate count, weight.
    Strip([u16; 4]),
    /// Any bytes.
    Raw(Vec<u8>),
}

use Record::*;

/// A record with its tag and length.
fn record(tag: u8, content: &[u16]) -> Vec<u8> {
    let mut bytes = vec![tag];
    bytes.extend((2 * content.len() as u16).to_be_bytes());
    bytes.extend(content.iter().flat_map(|n| n.to_be_bytes()));
    bytes
}

pub fn bytes(records: &[Record]) -> Vec<u8> {
    records.iter().flat_map(Record::bytes).collect()
}

impl Record {
    pub fn bytes(&self) -> Vec<u8> {
        match self {
            Field(number) => record(1, &[*number]),
            Strip(numbers) => record(2, numbers),
            Raw(bytes) => bytes.clone(),
        }
    }

    pub fn is_strip(&self) -> bool {
        matches!(self, Strip(_))
    }
}

/// How many fields a plan names.
pub fn fields(records: &[Record]) -> usize {
    records.iter().filter(|r| matches!(r, Field(_))).count()
}

/// A strip inside the grid.
fn strip(rng: &mut Rng, radials: usize, bins: usize) -> Record {
    let (radial, first) = (rng.below(radials), rng.below(bins));
    let count = if rng.one_in(4) { bins - first } else { rng.between(1, bins - first) };
    let weight = match rng.below(4) {
        0 => rng.pick(&[0, 1, 0x7fff, 0x8000, 0xffff]),
        1 => rng.u16(),
        _ => rng.between(1, 40) as u16,
    };
    Strip([radial as u16, first as u16, count as u16, weight])
}

/// Field numbers without a repeat, in no order.
fn numbers(rng: &mut Rng, count: usize) -> Vec<u16> {
    let (from, step) = (rng.u16(), rng.pick(&[1, 255, 257, 0x7fff, 0xffff]));
    (0..count as u16).map(|i| from.wrapping_add(i.wrapping_mul(step))).collect()
}

/// A good plan for a grid of this size, now and then one of as many strips as it may have, or nearly.
pub fn good(rng: &mut Rng, radials: usize, bins: usize) -> Vec<Record> {
    let count = if rng.one_in(8) { rng.below(40) } else { rng.below(5) };
    let mut fields: Vec<Vec<Record>> = numbers(rng, count).into_iter().map(|number| vec![Field(number)]).collect();
    let strips = match count {
        0 => 0,
        _ if rng.one_in(64) => MOST - rng.below(3),
        _ => rng.below(3 * count + 1),
    };
    for _ in 0..strips {
        let field = rng.below(count);
        fields[field].push(strip(rng, radials, bins));
    }
    fields.concat()
}

/// The strips of each field that has any.
fn strips_by_field(records: &[Record]) -> Vec<std::ops::Range<usize>> {
    let starts = (1..records.len()).filter(|i| records[*i].is_strip() && !records[*i - 1].is_strip());
    starts.map(|i| i..i + records[i..].iter().take_while(|r| r.is_strip()).count()).collect()
}

/// One strip cut in two, the second part anywhere among its field's strips.
pub fn cut_strip(rng: &mut Rng, records: &[Record]) -> Option<Vec<Record>> {
    let long = |r: &Record| matches!(r, Strip([_, _, count, _]) if *count > 1);
    let ranges: Vec<_> = strips_by_field(records).into_iter().filter(|r| records[r.clone()].iter().any(long)).collect();
    if ranges.is_empty() {
        return None;
    }
    let range = ranges[rng.below(ranges.len())].clone();
    let places: Vec<usize> = range.clone().filter(|i| long(&records[*i])).collect();
    let at = rng.pick(&places);
    let Strip([radial, first, count, weight]) = records[at] else { unreachable!() };
    let part = rng.between(1, count as usize - 1) as u16;
    let mut cut = records.to_vec();
    cut[at] = Strip([radial, first, part, weight]);
    cut.insert(rng.between(range.start, range.end), Strip([radial, first + part, count - part, weight]));
    Some(cut)
}

/// One strip moved among its field's strips.
pub fn move_strip(rng: &mut Rng, records: &[Record]) -> Option<Vec<Record>> {
    let ranges: Vec<_> = strips_by_field(records).into_iter().filter(|r| r.len() > 1).collect();
    if ranges.is_empty() {
        return None;
    }
    let range = ranges[rng.below(ranges.len())].clone();
    let mut moved = records.to_vec();
    let strip = moved.remove(range.start + rng.below(range.len()));
    moved.insert(range.start + rng.below(range.len()), strip);
    Some(moved)
}

/// One record more or another one in a place, of the kinds that are refused or that just pass.
pub fn damage(rng: &mut Rng, records: &mut Vec<Record>, radials: usize, bins: usize) {
    let at = rng.below(records.len() + 1);
    let named: Vec<u16> = records.iter().filter_map(|r| if let Field(number) = r { Some(*number) } else { None }).collect();
    match rng.below(16) {
        0 => {
            // an odd tag or length
            let tag = rng.pick(&[0, 1, 2, 3, 255]);
            let len = rng.pick(&[0u16, 1, 2, 3, 7, 8, 9, 0x0200, 0x0800, 0xffff]);
            let content = rng.pick(&[0, 2, 8, len.min(600)]) as usize;
            let content = rng.bytes(content);
            records.insert(at, Raw([&[tag], &len.to_be_bytes()[..], &content].concat()));
        }
        1 => {
            let few = rng.below(5);
            records.insert(at, Raw(rng.bytes(few)));
        }
        2 => {
            // a strip before any field
            let first = strip(rng, radials, bins);
            records.insert(0, first);
        }
        3 => {
            // the field of the first strips goes
            records.drain(..records.len().min(1));
        }
        4 | 5 => spoil_strip(rng, records, at, |_, strip| strip[2] = 0),
        6..=8 if !named.is_empty() => records.insert(at, Field(rng.pick(&named))),
        9 => {
            let radials = radials as u16;
            spoil_strip(rng, records, at, |rng, strip| strip[0] = rng.pick(&[radials, radials + 1, 0xff, 0xffff]))
        }
        10..=12 => {
            let bins = bins as u16;
            spoil_strip(rng, records, at, |rng, strip| match rng.below(5) {
                0 => strip[1] = bins,
                1 => strip[2] = (bins - strip[1].min(bins)) + 1,
                2 => strip[1] = 0xffff,
                3 => [strip[1], strip[2]] = rng.pick(&[[0xffff, 1], [1, 0xffff], [0xffff, 0xffff], [0x8000, 0x8000]]),
                _ => strip[2] = bins - strip[1].min(bins),
            })
        }
        13 => {
            // more strips than there may be, or just as many, in one field or in several
            let have = records.iter().filter(|r| r.is_strip()).count();
            let more = (MOST + rng.below(3)).saturating_sub(have);
            let strips: Vec<Record> = (0..more).map(|_| strip(rng, radials, bins)).collect();
            let places = records.len() + 1;
            for strips in strips.chunks(more.div_ceil(rng.pick(&[1, 2, 3])).max(1)) {
                let at = rng.below(places);
                records.splice(at..at, strips.iter().cloned());
            }
        }
        _ => {
            let odd = [rng.u16(), rng.u16(), rng.u16(), rng.u16()];
            records.insert(at, if rng.one_in(2) { Strip(odd) } else { Field(odd[0]) });
        }
    }
}

/// A strip of the plan with something else in it, or such a strip more.
fn spoil_strip(rng: &mut Rng, records: &mut Vec<Record>, at: usize, spoil: impl FnOnce(&mut Rng, &mut [u16; 4])) {
    let strips: Vec<usize> = (0..records.len()).filter(|i| records[*i].is_strip()).collect();
    let place = if strips.is_empty() {
        records.insert(at, Strip([0, 0, 1, 1]));
        at
    } else {
        rng.pick(&strips)
    };
    if let Strip(strip) = &mut records[place] {
        spoil(rng, strip);
    }
}

/// The bytes of a plan, cut near the end of a record, with bytes changed, or with every number in the other order.
pub fn damaged_bytes(rng: &mut Rng, records: &[Record]) -> Vec<u8> {
    let mut bytes = bytes(records);
    match rng.below(4) {
        0 | 1 => {
            let upto = rng.below(records.len() + 1);
            let end = records[..upto].iter().map(|r| r.bytes().len()).sum();
            bytes.truncate(rng.jitter(end));
        }
        2 => {
            for _ in 0..rng.between(1, 3).min(bytes.len()) {
                let at = rng.below(bytes.len());
                bytes[at] = rng.byte();
            }
        }
        _ => {
            let turned = records.iter().flat_map(|r| {
                let mut record = r.bytes();
                record.iter_mut().skip(1).collect::<Vec<_>>().chunks_exact_mut(2).for_each(|pair| {
                    let [a, b] = pair else { unreachable!() };
                    std::mem::swap(*a, *b);
                });
                record
            });
            bytes = turned.collect();
        }
    }
    bytes
}
