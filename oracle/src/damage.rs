//! Demand 3 as a test: damage to the data bytes and the unread bytes of an accepted body, and the answer that follows from
//! the first answer and the changed rows' own data; M-101's answer to the same body too.
use crate::make::Rng;
use crate::model::{self, Layout};
use lines::{Answer, Packet, Scheme, Sweep};
use std::ops::Range;

/// A second body of equal length, which differs in data bytes of radials and in unread bytes alone.
pub fn damaged(rng: &mut Rng, layout: &Layout, body: &[u8]) -> Vec<u8> {
    let mut second = body.to_vec();
    let what = rng.below(4);
    if what != 0 {
        for _ in 0..rng.between(1, 3) {
            let radial = rng.below(layout.data.len());
            row(rng, layout.packet, &mut second[layout.data[radial].clone()]);
        }
    }
    if what < 2 {
        let places: Vec<Range<usize>> = layout.unread.iter().filter(|r| !r.is_empty()).cloned().collect();
        for _ in 0..rng.between(1, 6) {
            let range = places[rng.below(places.len())].clone();
            let whole = rng.one_in(2);
            for at in range.clone() {
                if whole || rng.one_in(range.len()) {
                    second[at] = rng.byte();
                }
            }
        }
    }
    second
}

/// Other data for a radial, as many bytes.
pub fn row(rng: &mut Rng, packet: Packet, data: &mut [u8]) {
    if data.is_empty() {
        return;
    }
    match (rng.below(8), packet) {
        (0, _) => {
            let with = rng.pick(&[0, 0xff, 0x10]);
            data.fill(with);
        }
        (1, _) => data.iter_mut().for_each(|b| *b = rng.byte()),
        (2 | 3, _) => {
            let at = rng.below(data.len());
            data[at] = rng.byte();
        }
        // what follows mostly leaves a row: other colours, runs in another order, levels within 16 bits
        (4, Packet::Af1f) => {
            let (a, b) = (rng.below(data.len()), rng.below(data.len()));
            data.swap(a, b);
        }
        (_, Packet::Af1f) => data.iter_mut().for_each(|b| *b ^= rng.byte() & 0x0f),
        (_, Packet::P16) => data.iter_mut().for_each(|b| *b ^= rng.byte() & rng.byte()),
        (_, Packet::P28) => data.chunks_mut(4).for_each(|word| word[2..].fill(rng.byte())),
    }
}

/// The answers to the second body of the ordinary reading and of the gap reading, given the first's.
pub fn predicted(first: &Sweep, layout: &Layout, bodies: [&[u8]; 2], file: &[u8], scheme: Scheme) -> [Answer; 2] {
    let block = model::header_place(file).expect("an accepted file has a header") + 18;
    let value = model::physical_values(file, block, scheme);
    let (mut second, mut marks, mut refused) = (Box::new(first.clone()), vec![0; layout.data.len()], None);
    for (radial, data) in layout.data.iter().enumerate() {
        let [before, after] = bodies.map(|b| &b[data.clone()]);
        if before == after {
            continue;
        }
        match model::row(layout.packet, layout.bins, radial, after) {
            Err(refusal) => {
                refused.get_or_insert(refusal);
                model::make_gap(&mut second, radial);
                marks[radial] = 1;
            }
            Ok(codes) => {
                let cells = radial * layout.bins..(radial + 1) * layout.bins;
                let physical: Vec<f32> = codes.iter().map(|c| value(*c)).collect();
                second.picture.codes[cells.clone()].copy_from_slice(&codes);
                second.physical[cells].copy_from_slice(&physical);
            }
        }
    }
    let ordinary = match refused {
        Some(refusal) => Answer::Refused(refusal),
        None => Answer::Sweep(second.clone()),
    };
    [ordinary, Answer::Gaps(second, marks)]
}
