//! Whole cases, in weights that make every refusal and every packet under every scheme occur often.
use super::body::{self, Body};
use super::file::{self, File};
use super::generic;
use super::plans::{self, Record};
use super::Rng;
use crate::damage;
use crate::model::{self, CODES};
use crate::port::READS;
use lines::{Case, FieldKind, Lent, Packet, Scheme, EACH};

/// A day and second, the time they stand for, and a clock that lets it pass.
struct Time {
    days: u16,
    seconds: i32,
    clock: i128,
}

fn time(rng: &mut Rng) -> Time {
    let days = if rng.one_in(8) { rng.between(1, 65_535) as u16 } else { 20_000 };
    let seconds = if rng.one_in(8) { rng.pick(&[0, 86_399]) } else { rng.below(86_400) as i32 };
    let at = (days as i128 - 1) * 86_400 + seconds as i128;
    let clock = match rng.below(8) {
        0 => (at - 86_400).max(0),
        1 => 1 << 40,
        2 => at,
        _ => at + rng.below(100_000) as i128,
    };
    Time { days, seconds, clock }
}

/// Days and seconds that make no time, or a clock that is out of range or too far behind.
fn spoil_time(rng: &mut Rng, time: &mut Time) {
    let at = (time.days as i128 - 1) * 86_400 + time.seconds as i128;
    match rng.below(6) {
        0 => time.days = 0,
        1 => time.seconds = rng.pick(&[-1, 86_400, i32::MIN, i32::MAX]),
        2 => time.clock = rng.pick(&[(1 << 40) + 1, u64::MAX as i128, 1 << 41, i64::MAX as i128]),
        3 => time.clock = 0,
        _ => time.clock = at - 86_401 - rng.below(3) as i128 + rng.below(3) as i128,
    }
    if time.clock < 0 {
        time.clock = 0;
    }
    if rng.one_in(4) {
        time.clock = (1 << 40) + rng.below(3) as i128;
    }
}

fn parameter(rng: &mut Rng) -> f32 {
    match rng.below(4) {
        0 => rng.odd_f32(),
        1 => rng.plain_f32(),
        _ => rng.pick(&[1.0, 0.254, 25.4, 0.514444]),
    }
}

fn scheme(rng: &mut Rng) -> Scheme {
    let index = rng.below(5);
    Scheme::of(index, parameter(rng)).unwrap()
}

/// A scheme that the packet goes with.
pub fn fitting_scheme(rng: &mut Rng, packet: Packet) -> Scheme {
    let index = match packet {
        Packet::P16 => rng.pick(&[0, 1, 2, 4]),
        Packet::Af1f => rng.below(5),
        Packet::P28 => rng.pick(&[2, 4]),
    };
    Scheme::of(index, parameter(rng)).unwrap()
}

/// Enough for the body as it was made, with a few places to spare or none.
fn enough(rng: &mut Rng, body: &Body) -> Lent {
    Lent { azimuths: body.radials + rng.below(3), codes: body.cells() + rng.below(4), physical: body.cells() + rng.below(4) }
}

/// Too few places, or just enough.
fn some(rng: &mut Rng, need: usize) -> usize {
    match rng.below(4) {
        0 => need - 1,
        1 => rng.below(need + 1),
        2 => 0,
        _ => need,
    }
}

/// One or more of the buffers too short, or just long enough.
fn scant(rng: &mut Rng, body: &Body) -> Lent {
    Lent { azimuths: some(rng, body.radials), codes: some(rng, body.cells()), physical: some(rng, body.cells()) }
}

/// A good file, a good body and a scheme that fits, with enough lent: an accepted sweep, but for odd scale fields.
pub fn accepted(rng: &mut Rng) -> Case {
    let packet = rng.pick(&Packet::ALL);
    let scheme = fitting_scheme(rng, packet);
    let Time { days, seconds, clock } = time(rng);
    let file = file::file(rng, scheme, days, seconds).bytes;
    let body = body::good(rng, packet);
    let lent = enough(rng, &body);
    Case::Sweep { clock, scheme, lent, file, body: body.bytes }
}

fn spoil_file(rng: &mut Rng, file: &mut File) {
    match rng.below(8) {
        0 | 1 => file.cut(rng),
        2 => {
            // the head's letters go
            for b in &mut file.bytes[..file.header] {
                if b.is_ascii_alphanumeric() {
                    *b = b'-';
                }
            }
        }
        3 => {
            let at = rng.pick(&[file.header, file.block()]);
            file.bytes[at] = rng.byte();
        }
        4 => {
            let scale = rng.odd_f32();
            file.set(22, &scale.to_be_bytes());
        }
        5 => {
            let offset = rng.odd_f32();
            file.set(24, &offset.to_be_bytes());
        }
        6 => {
            let step = rng.pick(&[0, -1, i16::MIN, 1]);
            file.set(23, &step.to_be_bytes());
        }
        _ => {
            for _ in 0..rng.between(1, 4) {
                let at = rng.below(file.bytes.len());
                file.bytes[at] = rng.byte();
            }
        }
    }
}

pub fn sweep(rng: &mut Rng) -> Case {
    let packet = rng.pick(&Packet::ALL);
    let what = rng.below(20);
    // schemes that do not fit are for good bodies, where 10 can be reached
    let scheme = if what < 4 { scheme(rng) } else { fitting_scheme(rng, packet) };
    let mut time = time(rng);
    if what == 4 {
        spoil_time(rng, &mut time);
    }
    let mut file = file::file(rng, scheme, time.days, time.seconds);
    let mut body = body::good(rng, packet);
    let lent = if what == 5 { scant(rng, &body) } else { enough(rng, &body) };
    match what {
        6..=8 => spoil_file(rng, &mut file),
        9..=17 => body::damage(rng, &mut body),
        18 => {
            body::damage(rng, &mut body);
            body::damage_again(rng, &mut body);
        }
        _ => {}
    }
    let lent = if rng.one_in(16) { scant(rng, &body) } else { lent };
    Case::Sweep { clock: time.clock, scheme, lent, file: file.bytes, body: body.bytes }
}

/// A gap reading: data bytes changed, and some of the time other things after them.
pub fn gaps(rng: &mut Rng) -> Case {
    let packet = rng.pick(&[Packet::P16, Packet::Af1f, Packet::Af1f, Packet::P28, Packet::P28]);
    let what = rng.below(16);
    let scheme = if what == 0 { scheme(rng) } else { fitting_scheme(rng, packet) };
    let Time { days, seconds, clock } = time(rng);
    let mut file = file::file(rng, scheme, days, seconds);
    let mut body = body::good(rng, packet);
    let lent = if what == 1 { scant(rng, &body) } else { enough(rng, &body) };
    let marks = if what < 3 { some(rng, body.radials) } else { body.radials + rng.below(3) };
    if !rng.one_in(5) {
        body.bytes = damage::damaged(rng, &model::layout(&body.bytes), &body.bytes);
    }
    match what {
        3 => spoil_file(rng, &mut file),
        4..=9 => body::damage(rng, &mut body),
        10 => {
            body::damage(rng, &mut body);
            body::damage_again(rng, &mut body);
        }
        _ => {}
    }
    Case::Gaps { clock, scheme, lent, marks, file: file.bytes, body: body.bytes }
}

/// Two bodies to be merged: receptions of one body, damaged in any radials; or different sweeps; and some of the time another scheme, file
/// or buffers.
pub fn merge(rng: &mut Rng) -> Case {
    let packet = rng.pick(&Packet::ALL);
    let what = rng.below(24);
    let scheme = if what == 0 { scheme(rng) } else { fitting_scheme(rng, packet) };
    let Time { days, seconds, clock } = time(rng);
    let mut file = file::file(rng, scheme, days, seconds);
    let mut body = body::good(rng, packet);
    if packet == Packet::P28 && rng.one_in(4) {
        odd_figure(rng, &mut body);
    }
    let lent = if what < 5 { scant(rng, &body) } else { enough(rng, &body) };
    let marks = if what < 5 { some(rng, body.radials) } else { body.radials + rng.below(3) };
    let mut second = Body { bytes: body.bytes.clone(), ends: body.ends.clone(), starts: body.starts.clone(), marks: body.marks.clone(), ..body };
    match what {
        4 | 5 => second = body::of_size(rng, packet, body.radials, body.bins),
        6 => second = body::good(rng, packet),
        7 => {
            // the same counts, range scale and centres in the other packet
            if packet != Packet::P28 {
                let other = if packet == Packet::P16 { Packet::Af1f } else { Packet::P16 };
                second = body::of_size(rng, other, body.radials, body.bins);
                second.bytes[26..28].copy_from_slice(&body.bytes[26..28]);
                for (one, two) in body.starts.iter().zip(&second.starts) {
                    second.bytes[two + 2..two + 6].copy_from_slice(&body.bytes[one + 2..one + 6]);
                }
            }
        }
        8 if packet == Packet::P28 => zeros(rng, [&mut body, &mut second]),
        8..=11 => other_figure(rng, &mut second),
        12 => spoil_file(rng, &mut file),
        13 => body::damage(rng, &mut body),
        14 => body::damage(rng, &mut second),
        15 => {
            body::damage(rng, &mut body);
            body::damage(rng, &mut second);
        }
        _ => {}
    }
    for body in [&mut body, &mut second] {
        if !rng.one_in(4) && !matches!(what, 13..=15) {
            body.bytes = damage::damaged(rng, &model::layout(&body.bytes), &body.bytes);
        }
    }
    if rng.one_in(2) {
        std::mem::swap(&mut body.bytes, &mut second.bytes);
    }
    Case::Merge { clock, scheme, lent, marks, file: file.bytes, body: body.bytes, second: second.bytes }
}

/// A centre, the range scale or a gate figure becomes another, or another of the same value.
fn other_figure(rng: &mut Rng, body: &mut Body) {
    if body.packet == Packet::P28 {
        return odd_figure(rng, body);
    }
    if rng.one_in(3) {
        let range = rng.u16();
        return body.set16(26, range);
    }
    let at = body.starts[rng.below(body.starts.len())];
    let start = u16::from_be_bytes([body.bytes[at + 2], body.bytes[at + 3]]);
    let width = u16::from_be_bytes([body.bytes[at + 4], body.bytes[at + 5]]);
    match rng.below(3) {
        // the same centre
        0 if width > 2 => {
            body.set16(at + 2, start.wrapping_add(1));
            body.set16(at + 4, width - 2);
        }
        1 => body.set16(at + 2, start.wrapping_add(3600)),
        _ => body.set16(at + 2, start ^ 1),
    }
}

/// Packet 28: where the gate width and the first gate stand, and each azimuth; a width stands two words after it.
fn figures(body: &Body) -> (usize, Vec<usize>) {
    let places = |mark: generic::Mark| body.marks.iter().filter(move |(m, _)| *m == mark).map(|(_, at)| *at);
    let component = places(generic::Mark::ComponentType).next().expect("a component");
    let description = u32::from_be_bytes(body.bytes[component + 4..component + 8].try_into().unwrap()) as usize;
    (component + 8 + description.next_multiple_of(4), places(generic::Mark::Azimuth).collect())
}

/// Packet 28: a gate figure, an azimuth or a width becomes 0, -0.0, a NaN of any bits or any other float.
fn odd_figure(rng: &mut Rng, body: &mut Body) {
    let (gates, azimuths) = figures(body);
    let azimuth = azimuths[rng.below(azimuths.len())];
    let any = rng.u32();
    let float = rng.pick(&[0, 0x8000_0000, 0x7fc0_0000, 0x7f80_0001, 0xffc0_1234, 0x437a_0000, any]);
    let at = rng.pick(&[gates, gates + 4, azimuth, azimuth + 8]);
    body.set32(at, float);
}

/// Packet 28: a gate figure, or an azimuth and its width, is 0 in one body and -0.0 in the other.
fn zeros(rng: &mut Rng, bodies: [&mut Body; 2]) {
    let (gates, azimuths) = figures(bodies[0]);
    let azimuth = azimuths[rng.below(azimuths.len())];
    let places = rng.pick(&[[gates; 2], [gates + 4; 2], [azimuth, azimuth + 8]]);
    for (body, zero) in bodies.into_iter().zip([0, 0x8000_0000]) {
        places.iter().for_each(|at| body.set32(*at, zero));
    }
}

/// Bodies of two radials of three bins and the same figures, with rows of two kinds of codes and, but for packet 16, gaps.
pub fn rows_of_every_kind(rng: &mut Rng, packet: Packet) -> Vec<Vec<u8>> {
    let body = body::of_size(rng, packet, 2, 3).bytes;
    let layout = model::layout(&body);
    let kinds = if packet == Packet::P16 { 2 } else { 3 };
    let mut bodies = vec![];
    for mix in 0..kinds * kinds {
        let mut made = body.clone();
        for (radial, kind) in [(0, mix % kinds), (1, mix / kinds)] {
            let data = &mut made[layout.data[radial].clone()];
            match (packet, kind) {
                (Packet::P28, 2) => data[..4].fill(0xff),
                (Packet::P28, _) => data.chunks_mut(4).for_each(|word| word.copy_from_slice(&[0, 0, 0, 7 + kind as u8])),
                (Packet::P16, _) => data.fill(7 + kind as u8),
                (Packet::Af1f, 2) => data.fill(0),
                (Packet::Af1f, _) => {
                    data.fill(0);
                    data[0] = 0x37 + kind as u8;
                }
            }
        }
        bodies.push(made);
    }
    bodies
}

/// A field plan that is accepted, but for odd scale fields, and its records.
pub fn good_plan(rng: &mut Rng) -> (Case, Vec<Record>) {
    let packet = rng.pick(&Packet::ALL);
    let scheme = Scheme::Precip(parameter(rng));
    let Time { days, seconds, clock } = time(rng);
    let file = file::file(rng, scheme, days, seconds).bytes;
    let body = body::good(rng, packet);
    let lent = enough(rng, &body);
    let records = plans::good(rng, body.radials, body.bins);
    let totals = plans::fields(&records) + rng.below(3);
    let sweep = Case::Sweep { clock, scheme, lent, file, body: body.bytes };
    (sweep.with_plan(totals, plans::bytes(&records)), records)
}

/// A field plan: damaged more often than not, and some of the time another scheme, file, body or buffers.
pub fn plan(rng: &mut Rng) -> Case {
    let packet = rng.pick(&Packet::ALL);
    let what = rng.below(24);
    let scheme = match what {
        0 => scheme(rng),
        1 | 2 => fitting_scheme(rng, packet),
        _ => Scheme::Precip(parameter(rng)),
    };
    let Time { days, seconds, clock } = time(rng);
    let mut file = file::file(rng, scheme, days, seconds);
    let mut body = body::good(rng, packet);
    let (radials, bins) = (body.radials, body.bins);
    let lent = if what == 3 || what < 3 && rng.one_in(4) { scant(rng, &body) } else { enough(rng, &body) };
    match what {
        0 if rng.one_in(2) => body::damage(rng, &mut body),
        // a scale of -1, or a step of 0
        1 | 2 if rng.one_in(3) => file.set(22, &[0xbf, 0x80, 0, 0]),
        4 => spoil_file(rng, &mut file),
        5 => body::damage(rng, &mut body),
        _ => {}
    }
    let mut records = plans::good(rng, radials, bins);
    for _ in 0..rng.pick(&[0, 1, 1, 1, 2, 2]) {
        plans::damage(rng, &mut records, radials, bins);
    }
    let plan = if rng.one_in(8) { plans::damaged_bytes(rng, &records) } else { plans::bytes(&records) };
    let fields = plans::fields(&records);
    let totals = if rng.one_in(8) { some(rng, fields.max(1)) } else { fields + rng.below(3) };
    Case::Plan { clock, scheme, lent, totals, file: file.bytes, body: body.bytes, plan }
}

/// A clear scan with a plan, in buffers of a few places or none: good, or damaged in its body or its plan, and some of the time another
/// scheme, time or file.
pub fn clear(rng: &mut Rng) -> Case {
    let packet = rng.pick(&[Packet::P16, Packet::Af1f]);
    let what = rng.below(16);
    let scheme = match what {
        0..=2 => scheme(rng),
        3..=8 => Scheme::Precip(parameter(rng)),
        _ => fitting_scheme(rng, packet),
    };
    let mut time = time(rng);
    if what == 9 {
        spoil_time(rng, &mut time);
    }
    let mut file = file::file(rng, scheme, time.days, time.seconds);
    if what == 10 {
        spoil_file(rng, &mut file);
    }
    let mut body = body::clear(rng, packet);
    if what > 10 || rng.one_in(4) {
        body::damage_clear(rng, &mut body);
    }
    // strips that a grid of one radial would have
    let mut records = plans::good(rng, 1, body.bins);
    if !rng.one_in(3) {
        records.retain(|record| !record.is_strip());
    }
    if rng.one_in(4) {
        plans::damage(rng, &mut records, 1, body.bins);
    }
    let fields = plans::fields(&records);
    let totals = if rng.one_in(8) { some(rng, fields.max(1)) } else { fields + rng.below(3) };
    let sweep = Case::Sweep { clock: time.clock, scheme, lent: few(rng), file: file.bytes, body: body.bytes };
    sweep.with_plan(totals, plans::bytes(&records))
}

fn few(rng: &mut Rng) -> Lent {
    Lent { azimuths: rng.below(3), codes: rng.below(3), physical: rng.below(3) }
}

/// The same with another body of no radials that agrees with the first on the bytes that are read, of any length, in other buffers.
pub fn alike(rng: &mut Rng, case: &Case) -> Case {
    let mut again = case.clone();
    let Case::Plan { lent, body, .. } = &mut again else { unreachable!() };
    let len = 30 + rng.pick(&[0, 1, 6, 7, 40]);
    let mut other = rng.bytes(len);
    for read in model::clear_reads(body) {
        other[read.clone()].copy_from_slice(&body[read]);
    }
    (*lent, *body) = (few(rng), other);
    again
}

/// A precipitation sweep whose floor and ceiling are at or around a place at which the Rust's level count is another.
pub fn level_count(rng: &mut Rng) -> Case {
    let packet = rng.pick(&Packet::ALL);
    let scheme = Scheme::Precip(parameter(rng));
    let Time { days, seconds, clock } = time(rng);
    let mut file = file::file(rng, scheme, days, seconds);
    let flags: [u16; 3] = match rng.below(4) {
        0 => [0xffff, 0, 0],
        1 => [0xffff - rng.below(3) as u16, rng.below(3) as u16, rng.below(3) as u16],
        2 => [rng.below(10) as u16, rng.below(10) as u16, rng.below(3) as u16],
        _ => [rng.pick(&[0, 255]), rng.below(11) as u16, rng.below(11) as u16],
    };
    file.set(27, &flags.map(u16::to_be_bytes).concat());
    let body = body::good(rng, packet);
    let lent = enough(rng, &body);
    Case::Sweep { clock, scheme, lent, file: file.bytes, body: body.bytes }
}

/// A tariff that is well formed: ends and rates.
fn tariff(rng: &mut Rng) -> (Vec<u64>, Vec<u32>) {
    let top = 1 << 40;
    let bands = rng.between(1, 8);
    let end = |rng: &mut Rng| match rng.below(6) {
        0 => rng.below(4) as u64,
        1 => top - rng.below(4) as u64,
        2 => top + rng.below(4) as u64,
        3 => rng.u64() >> rng.below(40),
        _ => rng.u64() >> rng.between(25, 60),
    };
    let mut ends: Vec<u64> = (1..bands).map(|_| end(rng)).collect();
    ends.push(rng.pick(&[top, top, top + 1, 1 << 63, u64::MAX]));
    ends.sort();
    ends.dedup();
    let rate = |rng: &mut Rng| match rng.below(4) {
        0 => rng.pick(&[0, 1, 999, 1000, 65_535]),
        _ => rng.u16().into(),
    };
    let rates = ends.iter().map(|_| rate(rng)).collect();
    (ends, rates)
}

/// A total, near one of the ends as often as not.
fn total(rng: &mut Rng, ends: &[u64]) -> u64 {
    let top = 1 << 40;
    match rng.below(8) {
        0 => rng.pick(&[0, 1, top - 1, top, top, top + 1, u64::MAX]),
        1..=4 if !ends.is_empty() => rng.pick(ends).saturating_add(rng.below(3) as u64).saturating_sub(1).min(top),
        _ => rng.u64() >> rng.between(24, 63),
    }
}

/// The charge of two totals by one tariff that is well formed.
pub fn charges(rng: &mut Rng) -> (Vec<u64>, Vec<u32>, [u64; 2]) {
    let (ends, rates) = tariff(rng);
    let totals = [total(rng, &ends), total(rng, &ends)];
    (ends, rates, totals)
}

/// A charge, by a tariff that is malformed more often than not.
pub fn charge(rng: &mut Rng) -> Case {
    let (mut ends, mut rates) = tariff(rng);
    let total = total(rng, &ends);
    match rng.below(12) {
        0 => {
            ends.clear();
            rates.clear();
        }
        1 | 2 => {
            // eight bands, nine, or ten
            for _ in 0..rng.between(8, 10).saturating_sub(ends.len()) {
                ends.insert(0, 0);
                rates.push(rng.u16().into());
            }
            for (k, end) in ends.iter_mut().enumerate().take(8) {
                *end = (*end).max(k as u64);
            }
        }
        3 => {
            rates.pop();
        }
        4 => rates.push(rng.u16().into()),
        5 => {
            let at = rng.below(ends.len());
            ends.insert(at, ends[at]);
            rates.insert(at, rng.u16().into());
        }
        6 => {
            let (a, b) = (rng.below(ends.len()), rng.below(ends.len()));
            ends.swap(a, b);
        }
        7 => {
            // the last end is below 2^40, or just there
            let last = (1 << 40) - rng.below(3) as u64;
            ends.retain(|end| *end < last);
            ends.push(last);
            rates.resize(ends.len(), 7);
        }
        8 | 9 => {
            let at = rng.below(rates.len());
            rates[at] = rng.pick(&[65_535, 65_536, 65_537, 0x8000_0000, u32::MAX]);
        }
        _ => {}
    }
    Case::Charge { total, ends, rates }
}

/// An export in a buffer that is as long as it must be, or nearly, and a sweep's input with the same body: one of packet AF1F with
/// first bin 0, good or damaged; some of the time a clear scan, 65,535 bins, another first bin or another packet.
pub fn export(rng: &mut Rng) -> (Case, Case) {
    let what = rng.below(16);
    let packet = if what == 0 { rng.pick(&Packet::ALL) } else { Packet::Af1f };
    let mut body = match what {
        1 | 2 => body::clear(rng, packet),
        3 if rng.one_in(8) => body::of_size(rng, packet, 1, 65_535),
        _ => body::good(rng, packet),
    };
    if !rng.one_in(4) {
        body.set16(18, 0);
    }
    let length = model::export::length(body.radials, body.bins);
    let out = match rng.below(4) {
        0 => some(rng, length),
        more => length + more - 1,
    };
    let lent = enough(rng, &body);
    match what {
        0 if rng.one_in(2) => body::damage(rng, &mut body),
        2 => body::damage_clear(rng, &mut body),
        3 => body.set16(20, 65_535),
        4..=9 => body::damage(rng, &mut body),
        10 => {
            body::damage(rng, &mut body);
            body::damage_again(rng, &mut body);
        }
        _ => {}
    }
    let scheme = scheme(rng);
    let Time { days, seconds, clock } = time(rng);
    let mut file = file::file(rng, scheme, days, seconds);
    if rng.one_in(8) {
        spoil_file(rng, &mut file);
    }
    let lent = if rng.one_in(8) && body.radials > 0 { scant(rng, &body) } else { lent };
    let export = Case::Export { out, body: body.bytes.clone() };
    (export, Case::Sweep { clock, scheme, lent, file: file.bytes, body: body.bytes })
}

/// A reading by the archive profile, of bodies with surplus and without, some of them clear scans or damaged.
pub fn strict(rng: &mut Rng) -> Case {
    let packet = rng.pick(&Packet::ALL);
    let what = rng.below(16);
    if what < 2 {
        return clear(rng).ordinary().strict();
    }
    let scheme = if what == 2 { scheme(rng) } else { fitting_scheme(rng, packet) };
    let Time { days, seconds, clock } = time(rng);
    let mut file = file::file(rng, scheme, days, seconds);
    let mut body = body::archived(rng, packet);
    let lent = if what == 3 { scant(rng, &body) } else { enough(rng, &body) };
    match what {
        4 => spoil_file(rng, &mut file),
        5..=8 => body::damage(rng, &mut body),
        _ => {}
    }
    Case::Strict { clock, scheme, lent, file: file.bytes, body: body.bytes }
}

pub fn symbology(rng: &mut Rng) -> Case {
    let packet = rng.pick(&Packet::ALL);
    let mut body = body::good(rng, packet);
    if !rng.one_in(4) {
        body::damage(rng, &mut body);
    }
    Case::Sym { body: body.bytes }
}

pub fn token(rng: &mut Rng) -> Case {
    let mut file = file::pieces(rng, 8);
    if rng.one_in(3) {
        // a token near byte 128
        let at = rng.between(110, 128);
        file.resize(at, rng.pick(b"x \r"));
        file.extend(file::pieces(rng, 3));
        file.extend(file::token(rng));
        file.extend(file::pieces(rng, 2));
    }
    Case::Token { file }
}

pub fn message_header(rng: &mut Rng) -> Case {
    let len = rng.pick(&[19, 20, 21, 22, 40, 126, 127, 128, 129, 150]);
    let mut file = vec![rng.pick(&[0, 0xff, 0x20]); len];
    for _ in 0..rng.between(1, 3) {
        let at = match rng.below(3) {
            0 => len.saturating_sub(rng.between(18, 24)),
            1 => rng.between(100, 112),
            _ => rng.below(len),
        };
        let code = if rng.one_in(4) { rng.u16() } else { rng.pick(&CODES) };
        for (k, b) in code.to_be_bytes().iter().chain(&[0; 16]).chain(&[0xff, 0xff]).enumerate() {
            // the sixteen bytes between are left as they are
            if (at + k) < len && !(2..18).contains(&k) {
                file[at + k] = *b;
            }
        }
    }
    Case::Mhb { file }
}

pub fn scan_time(rng: &mut Rng) -> Case {
    let mut time = time(rng);
    if rng.one_in(2) {
        spoil_time(rng, &mut time);
    }
    Case::Time { clock: time.clock, days: time.days, seconds: time.seconds }
}

/// A day number: any, near the first and the last, or around the end of a February.
pub fn date(rng: &mut Rng) -> Case {
    let days = match rng.below(8) {
        0 => rng.below(4) as u16,
        1 => 65_535 - rng.below(8) as u16,
        2 => rng.pick(&[58, 789, 11_015, 47_540]) + rng.below(4) as u16,
        _ => rng.u16(),
    };
    Case::Date { days }
}

/// A message code: a known one, one around the last, or any.
pub fn product(rng: &mut Rng) -> Case {
    let code = match rng.below(4) {
        0 => rng.u16() as i16,
        1 => rng.between(174, 181) as i16,
        _ => rng.pick(&CODES) as i16,
    };
    Case::Product { code }
}

/// Lengths around that of a name's buffer.
pub const PLACES: [usize; 5] = [0, 31, 32, 33, 40];

/// The name of a refusal, of 0, of a number above them all.
pub fn name(rng: &mut Rng) -> Case {
    let number = match rng.below(8) {
        0 => rng.u32(),
        1 => rng.below(121) as u32,
        2 => rng.pick(&[0, 46, 47, 100, 101]),
        _ => rng.between(1, 46) as u32,
    };
    Case::Name { number, places: rng.pick(&PLACES) }
}

pub const KINDS: [FieldKind; 4] = [FieldKind::I16, FieldKind::U16, FieldKind::I32, FieldKind::Pair];

/// A field inside the Rust's domain, near the file's end as often as not.
pub fn field(rng: &mut Rng) -> Case {
    let n = rng.below(40);
    let file = rng.bytes(n);
    let block = rng.pick(&[0, 1, 2, 7, 30, 0xffff_ffff]);
    let index = match rng.below(8) {
        0 => rng.between(1, 65_535),
        1 => 65_535,
        _ => rng.between(1, 22),
    };
    Case::Field { file, block, index, kind: rng.pick(&KINDS) }
}

/// A reading of several fields: the description block, or one of the scale fields.
pub fn block(rng: &mut Rng) -> Case {
    let scheme = scheme(rng);
    let mut made = file::file(rng, scheme, 20_000, 3600);
    if rng.one_in(3) {
        made.cut(rng);
    }
    if rng.one_in(4) {
        let value = rng.odd_f32().to_be_bytes();
        let at = made.block() + rng.pick(&[42, 46]);
        if at + 4 <= made.bytes.len() {
            made.bytes[at..at + 4].copy_from_slice(&value);
        }
    }
    let block = if rng.one_in(16) { rng.pick(&[0, 0xffff_ffff, 200]) } else { made.block() };
    let file = made.bytes;
    match rng.below(6) {
        0 => Case::Pdb { file, block },
        1 => Case::Lin { file, block },
        2 => Case::Flt { file, block },
        3 => Case::Thr { file, block },
        _ => Case::Prc { file, block, factor: parameter(rng) },
    }
}

pub fn levels(rng: &mut Rng) -> Case {
    let thresholds = rng.bytes(32).try_into().unwrap();
    Case::Leg { thresholds, post_scale: parameter(rng) }
}

pub fn trailing(rng: &mut Rng) -> Case {
    let mut bytes = match rng.below(4) {
        0 => vec![],
        1 => vec![3],
        2 => b"\r\r\n\x03".to_vec(),
        _ => (0..rng.below(9)).map(|_| rng.pick(b"\r\n\x03\0x")).collect(),
    };
    if rng.one_in(3) && !bytes.is_empty() {
        let at = rng.below(bytes.len());
        bytes[at] = rng.pick(b"\r\n\x03\0\x02");
    }
    bytes.extend(vec![0; rng.pick(&[0, 0, 1, 3, 20])]);
    Case::Trail { bytes }
}

/// Words that XDR items begin with.
pub const WORDS: [u32; 16] =
    [0, 1, 2, 3, 4, 5, 4095, 4096, 4097, 10_000, 10_001, 100_000, 100_001, 0x7fff_ffff, 0x8000_0000, 0xffff_ffff];

pub fn xdr(rng: &mut Rng) -> Case {
    let ops = (0..rng.between(1, 5)).map(|_| rng.pick(b"iufsal") as char).collect::<String>();
    let mut payload = vec![];
    if rng.one_in(4) {
        // a few words whatever is read
        for _ in 0..rng.below(6) {
            payload.extend(rng.pick(&WORDS).to_be_bytes());
        }
        let more = rng.below(4);
        payload.extend(rng.bytes(more));
        return Case::Xdr { ops, payload };
    }
    items(rng, &ops, &mut payload);
    Case::Xdr { ops, payload }
}

/// What `EACH` reads.
pub fn each(rng: &mut Rng) -> Case {
    let mut payload = vec![];
    items(rng, EACH, &mut payload);
    Case::Each { payload }
}

/// A few bytes and an offset around their end.
pub fn read(rng: &mut Rng) -> Case {
    let len = rng.below(12);
    Case::Read { bytes: rng.bytes(len), offset: rng.below(len + 4), kind: rng.pick(&READS) }
}

/// Good items, or cut, or with a word changed.
fn items(rng: &mut Rng, ops: &str, payload: &mut Vec<u8>) {
    for op in ops.chars() {
        match op {
            's' => string(rng, payload),
            'a' => {
                let n = rng.below(4);
                payload.extend((n as u32).to_be_bytes());
                payload.extend(rng.bytes(4 * n));
            }
            'h' => {
                payload.extend(rng.pick(&[0u32, 1, 2, u32::MAX]).to_be_bytes());
                payload.extend(rng.u32().to_be_bytes());
            }
            'l' => {
                let n: i32 = rng.pick(&[0, 0, 1, 2, 3, -1]);
                payload.extend(n.to_be_bytes());
                payload.extend(rng.u32().to_be_bytes());
                for i in 0..n {
                    string(rng, payload);
                    string(rng, payload);
                    if i + 1 < n {
                        payload.extend(rng.u32().to_be_bytes());
                    }
                }
            }
            _ => payload.extend(rng.u32().to_be_bytes()),
        }
    }
    match rng.below(6) {
        0 => payload.truncate(rng.below(payload.len() + 1)),
        1 => {
            let at = rng.below(payload.len() / 4 + 1) * 4;
            if at + 4 <= payload.len() {
                payload[at..at + 4].copy_from_slice(&rng.pick(&WORDS).to_be_bytes());
            }
        }
        _ => {}
    }
}

fn string(rng: &mut Rng, to: &mut Vec<u8>) {
    let n = rng.below(10);
    to.extend((n as u32).to_be_bytes());
    for _ in 0..n {
        to.push(if rng.one_in(3) {
            0
        } else if rng.one_in(12) {
            rng.byte()
        } else {
            rng.byte() & 0x7f
        });
    }
    while !to.len().is_multiple_of(4) {
        to.push(rng.byte());
    }
}
