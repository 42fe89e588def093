//! Bodies of packets 16 and AF1F, and what the three packets share.
use super::generic;
use super::Rng;
use lines::Packet;

/// A body as it was made.
pub struct Body {
    pub bytes: Vec<u8>,
    pub packet: Packet,
    pub radials: usize,
    pub bins: usize,
    /// Ends of items: the reading looks past none of them without asking whether there is more.
    pub ends: Vec<usize>,
    /// Where each radial's six bytes stand (packets 16 and AF1F).
    pub starts: Vec<usize>,
    /// Numbers of a packet 28 payload.
    pub marks: Vec<(generic::Mark, usize)>,
}

impl Body {
    pub fn cells(&self) -> usize {
        self.radials * self.bins
    }

    pub fn set16(&mut self, at: usize, value: u16) {
        if at + 2 <= self.bytes.len() {
            self.bytes[at..at + 2].copy_from_slice(&value.to_be_bytes());
        }
    }

    pub fn set32(&mut self, at: usize, value: u32) {
        if at + 4 <= self.bytes.len() {
            self.bytes[at..at + 4].copy_from_slice(&value.to_be_bytes());
        }
    }
}

/// A good body.
pub fn good(rng: &mut Rng, packet: Packet) -> Body {
    let (radials, bins) = size(rng);
    of_size(rng, packet, radials, bins)
}

pub fn of_size(rng: &mut Rng, packet: Packet, radials: usize, bins: usize) -> Body {
    match packet {
        Packet::P28 => generic::body(rng, radials, bins),
        _ => radial_body(rng, packet, radials, bins),
    }
}

fn size(rng: &mut Rng) -> (usize, usize) {
    match rng.below(1000) {
        0 => (rng.between(1, 200), rng.between(1, 1000)),
        1..=30 => (rng.between(1, 40), rng.between(1, 100)),
        31..=40 => (1, rng.between(1, 3000)),
        41..=50 => (rng.between(1, 400), 1),
        _ => (rng.between(1, 5), rng.between(1, 12)),
    }
}

/// The first thirty bytes.
pub fn header(rng: &mut Rng, packet: Packet, radials: usize, bins: usize) -> Vec<u8> {
    let mut b = vec![0xff, 0xff, 0, 1];
    b.extend(rng.bytes(12));
    b.extend(if packet == Packet::P16 { [0, 16] } else { [0xaf, 0x1f] });
    b.extend(if packet == Packet::P16 { [0, 0] } else { rng.u16().to_be_bytes() });
    b.extend((bins as u16).to_be_bytes());
    b.extend(rng.bytes(4));
    b.extend(rng.u16().to_be_bytes());
    b.extend((radials as u16).to_be_bytes());
    b
}

fn radial_body(rng: &mut Rng, packet: Packet, radials: usize, bins: usize) -> Body {
    let mut bytes = header(rng, packet, radials, bins);
    let mut ends = vec![2, 4, 18, 30];
    let mut starts = vec![];
    // what a row has beyond its bins, and what stands after the last radial
    let surplus = if rng.one_in(3) { 6 } else { 1 };
    for _ in 0..radials {
        let data = if packet == Packet::P16 {
            let extra = rng.below(surplus);
            rng.bytes(bins + extra)
        } else {
            runs(rng, bins, surplus)
        };
        let count = if packet == Packet::P16 { data.len() } else { data.len() / 2 };
        starts.push(bytes.len());
        bytes.extend((count as u16).to_be_bytes());
        bytes.extend(start(rng).to_be_bytes());
        bytes.extend((rng.between(1, 100) as u16).to_be_bytes());
        ends.push(bytes.len());
        bytes.extend(data);
        ends.push(bytes.len());
    }
    if rng.one_in(4) {
        let tail = rng.below(12);
        bytes.extend(rng.bytes(tail));
    }
    Body { bytes, packet, radials, bins, ends, starts, marks: vec![] }
}

/// A clear scan of packet 16 or AF1F, some of the time with bytes after its header.
pub fn clear(rng: &mut Rng, packet: Packet) -> Body {
    let bins = match rng.below(4) {
        0 => rng.pick(&[1, 255, 256, 65_535]),
        1 => rng.between(1, 65_535),
        _ => rng.between(1, 12),
    };
    let mut bytes = header(rng, packet, 0, bins);
    if rng.one_in(2) {
        let tail = rng.below(12);
        bytes.extend(rng.bytes(tail));
    }
    Body { bytes, packet, radials: 0, bins, ends: vec![2, 4, 18, 30], starts: vec![], marks: vec![] }
}

/// A body for the archive: its rows and its end are exact, but for some of the time a row or more with surplus, or bytes after the last
/// radial or the payload. Zero runs and, after an odd row of packet 16, one byte more are no surplus.
pub fn archived(rng: &mut Rng, packet: Packet) -> Body {
    let (radials, bins) = size(rng);
    let mut body = match packet {
        Packet::P28 => {
            let mut body = generic::body(rng, radials, bins);
            let length = u32::from_be_bytes(body.bytes[20..24].try_into().unwrap());
            body.bytes.truncate(24 + length as usize);
            body
        }
        _ => {
            let over = if rng.one_in(3) { rng.below(radials) } else { radials };
            archived_radials(rng, packet, (radials, bins), over)
        }
    };
    if rng.one_in(4) {
        let tail = rng.between(1, 3);
        body.bytes.extend(rng.bytes(tail));
    }
    body
}

/// Radial `over` has surplus, and some after it.
fn archived_radials(rng: &mut Rng, packet: Packet, (radials, bins): (usize, usize), over: usize) -> Body {
    let mut bytes = header(rng, packet, radials, bins);
    let (mut ends, mut starts) = (vec![2, 4, 18, 30], vec![]);
    for radial in 0..radials {
        let surplus = radial == over || radial > over && rng.one_in(2);
        let data = if packet == Packet::P16 {
            let odd = bins % 2 == 1;
            let more = match surplus {
                true => rng.between(1, 2) + usize::from(odd),
                false => usize::from(odd && rng.one_in(2)),
            };
            let mut data = rng.bytes(bins + more);
            if more > 0 && rng.one_in(2) {
                data[bins] = 0;
            }
            data
        } else {
            let mut data = runs(rng, bins, 1);
            // what was put there to make the number even becomes a zero run
            let mut sum = 0;
            for run in &mut data {
                if sum == bins {
                    *run &= 15;
                }
                sum += usize::from(*run >> 4);
            }
            if surplus {
                data.extend([rng.below(16) as u8, rng.pick(&[0x10, 0x1f, 0x37, 0xf0])]);
            }
            data
        };
        let count = if packet == Packet::P16 { data.len() } else { data.len() / 2 };
        starts.push(bytes.len());
        bytes.extend([count as u16, start(rng), rng.between(1, 100) as u16].map(u16::to_be_bytes).concat());
        ends.push(bytes.len());
        bytes.extend(data);
        ends.push(bytes.len());
    }
    Body { bytes, packet, radials, bins, ends, starts, marks: vec![] }
}

/// Damages a clear scan: another first bin, no bins, a radial that is not there, or as other bodies.
pub fn damage_clear(rng: &mut Rng, body: &mut Body) {
    match rng.below(8) {
        0 => flip(rng, body),
        1 => shared_header(rng, body),
        2 => cut(rng, body),
        3 => body.bytes.truncate(rng.between(26, 31)),
        4 => body.set16(20, 0),
        5 => body.set16(28, rng.pick(&[1, 2, 256, 65_535])),
        _ => {
            let first = if rng.one_in(2) { 1 } else { rng.u16() };
            body.set16(18, first);
        }
    }
}

/// A packet 16 body with nothing beside its rows.
pub fn bench16(rng: &mut Rng, radials: usize, bins: usize) -> Vec<u8> {
    let mut bytes = header(rng, Packet::P16, radials, bins);
    for radial in 0..radials {
        bytes.extend([bins as u16, (radial * 5 % 3600) as u16, 5].map(u16::to_be_bytes).concat());
        bytes.extend(rng.bytes(bins));
    }
    bytes
}

/// An AF1F body with runs of 1 to `longest`, and a zero byte where the count of run bytes is odd.
pub fn bench_af1f(rng: &mut Rng, radials: usize, bins: usize, longest: usize) -> Vec<u8> {
    let mut bytes = header(rng, Packet::Af1f, radials, bins);
    for radial in 0..radials {
        let (mut data, mut left) = (vec![], bins);
        while left > 0 {
            let run = rng.between(1, longest.min(left));
            data.push((run as u8) << 4 | rng.below(16) as u8);
            left -= run;
        }
        data.resize(data.len().next_multiple_of(2), 0);
        bytes.extend([data.len() as u16 / 2, (radial * 10 % 3600) as u16, 10].map(u16::to_be_bytes).concat());
        bytes.extend(data);
    }
    bytes
}

fn start(rng: &mut Rng) -> u16 {
    match rng.below(8) {
        0 => rng.u16(),
        1 => rng.pick(&[0, 1, 3595, 3599, 3600, 7199, 65_535]),
        _ => rng.below(3600) as u16,
    }
}

/// Run bytes whose lengths reach `bins`, some of them of length zero, and up to `surplus` bytes after them.
fn runs(rng: &mut Rng, bins: usize, surplus: usize) -> Vec<u8> {
    let longest = rng.pick(&[1, 3, 15]);
    let mut data = vec![];
    let mut left = bins;
    while left > 0 {
        let run = if rng.one_in(8) { 0 } else { rng.between(1, longest.min(left)) };
        data.push((run as u8) << 4 | rng.below(16) as u8);
        left -= run;
    }
    for _ in 0..rng.below(surplus) {
        data.push(rng.byte());
    }
    if data.len() % 2 == 1 {
        data.push(if rng.one_in(2) { 0 } else { rng.byte() });
    }
    data
}

/// Damages a body in one of the ways that its checks are about, or anyhow.
pub fn damage(rng: &mut Rng, body: &mut Body) {
    match rng.below(12) {
        0 => cut(rng, body),
        1 => flip(rng, body),
        2 if rng.one_in(3) => shared_header(rng, body),
        _ if body.packet == Packet::P28 => generic::damage(rng, body),
        _ => radials(rng, body),
    }
}

/// A second damage, of the kinds that need nothing of how the body was made.
pub fn damage_again(rng: &mut Rng, body: &mut Body) {
    match rng.below(3) {
        0 => cut(rng, body),
        1 if !body.bytes.is_empty() => flip(rng, body),
        _ => shared_header(rng, body),
    }
}

/// Cuts the body near the end of an item.
pub fn cut(rng: &mut Rng, body: &mut Body) {
    let end = rng.pick(&body.ends);
    body.bytes.truncate(rng.jitter(end));
}

/// Changes a few bytes anywhere.
pub fn flip(rng: &mut Rng, body: &mut Body) {
    for _ in 0..rng.between(1, 4) {
        let at = rng.below(body.bytes.len());
        body.bytes[at] = rng.byte();
    }
}

fn shared_header(rng: &mut Rng, body: &mut Body) {
    match rng.below(3) {
        0 => {
            let value = rng.pick(&[0, 1, 2, 0xfffe, 0x7fff, 0xffff]);
            body.set16(rng.pick(&[0, 2]), value);
        }
        1 => {
            let code = rng.u16();
            body.set16(16, code);
        }
        _ => {
            let code = rng.pick(&[15, 16, 17, 27, 28, 29, 0xaf1e, 0xaf1f, 0xaf20]);
            body.set16(16, code);
        }
    }
}

fn radials(rng: &mut Rng, body: &mut Body) {
    let (radials, bins) = (body.radials as u16, body.bins as u16);
    let which = rng.below(body.radials);
    let at = body.starts[which];
    let room = body.bytes.len() - at - 6;
    match rng.below(12) {
        0 => {
            // a zero count
            let field = rng.pick(&[20, 28]);
            body.set16(field, 0);
            if rng.one_in(3) {
                body.set16(48 - field, 0);
            }
        }
        1 => {
            // more cells than the cap, or nearly
            let (r, b) = rng.pick(&[
                (65_535, 65_535),
                (2000, 2001),
                (2001, 2000),
                (62, 65_535),
                (61, 65_535),
                (65_535, 61),
                (2000, 2000),
            ]);
            body.set16(28, r);
            body.set16(20, b);
        }
        2 => {
            let first = if rng.one_in(2) { 1 } else { rng.u16() };
            body.set16(18, first);
        }
        3 => {
            let bins = rng.jitter(bins as usize) as u16;
            body.set16(20, bins);
        }
        4 => {
            let more = rng.between(1, 3) as u16;
            body.set16(28, radials + more);
        }
        5 | 6 => {
            let width = rng.pick(&[0, 101, 102, 1000, 65_535, 100, 1]);
            body.set16(at + 4, width);
        }
        7 => {
            // a count near what is left of the body
            let unit = if body.packet == Packet::P16 { 1 } else { 2 };
            let count = rng.jitter(room / unit);
            body.set16(at, count.min(65_535) as u16);
        }
        8 => {
            let count = rng.pick(&[0, 1, bins.saturating_sub(1), bins, bins + 1, 65_535]);
            body.set16(at, count);
        }
        9 => {
            // the last radial loses bytes
            let from = body.bytes.len() - 1 - rng.below(room.clamp(1, 8));
            body.bytes.truncate(from);
        }
        _ => {
            // the row's data become something else
            for i in 0..room.min(1 + rng.below(8)) {
                body.bytes[at + 6 + i] = if rng.one_in(3) { rng.byte() } else { rng.byte() & 0x3f };
            }
        }
    }
}
