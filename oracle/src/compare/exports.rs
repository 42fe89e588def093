//! M-109 in the runs: the fixed cases, and that the body which is written is read as the original is.
use super::fixed::{plain_file, run_mixes};
use super::Compare;
use crate::make::{body, cases, Rng};
use crate::model;
use crate::sample;
use lines::{Answer, Case, Lent, Packet, Scheme};

impl Compare {
    /// An export, and sweep readings of both bodies.
    pub fn export(&mut self, rng: &mut Rng) {
        let (case, sweep) = cases::export(rng);
        if let Some(written) = self.exported(&case) {
            self.swept_alike(&sweep, written);
        }
    }

    /// An export. What is written of it, symbology reads to the last byte, and as it reads the original.
    fn exported(&mut self, case: &Case) -> Option<Vec<u8>> {
        let Case::Export { body, .. } = case else { unreachable!() };
        let (_, Answer::Written(written)) = self.both(case) else { return None };
        let sym = |body: &[u8]| Case::Sym { body: body.to_vec() };
        let before = self.both(&sym(body));
        let after = self.both(&sym(&written));
        self.held_alike(&sym(&written), before, after);
        let shorter = sym(&written[..written.len().saturating_sub(1)]);
        let (rust, port) = self.both(&shorter);
        if rust.refusal().is_none() || port.refusal().is_none() {
            self.differs("a byte less than what was written is read", &shorter, &[("reference", &rust), ("port", &port)]);
        }
        self.counts.export_laws[0] += 1;
        Some(written)
    }

    /// A sweep reading of the original and one of what was written, with the same other input: under any scheme but legacy both are
    /// answered alike, but for the packet.
    fn swept_alike(&mut self, original: &Case, written: Vec<u8>) {
        let mut case = original.clone();
        let Case::Sweep { scheme, body, .. } = &mut case else { unreachable!() };
        let legacy = matches!(scheme, Scheme::Legacy(_));
        *body = written;
        let before = self.both(original);
        let after = self.both(&case);
        self.export_passes(&case, &after.1);
        if !legacy {
            self.held_alike(&case, before, after);
            self.counts.export_laws[1] += 1;
        }
    }

    /// The reference's answers to the original and to what was written, and the port's, must be alike but for the packet.
    fn held_alike(&mut self, case: &Case, before: (Answer, Answer), after: (Answer, Answer)) {
        for (who, original, written) in [("reference", before.0, after.0), ("port", before.1, after.1)] {
            if !with_packet(original.clone(), Packet::Af1f, Packet::P16).is_some_and(|a| a.same(&written)) {
                self.differs("not read as the original is", case, &[("original", &original), (who, &written)]);
            }
        }
    }

    /// The lines of the list; every code; rows of every length, in buffers that are just long enough, one place short and longer, read
    /// under every scheme; every length of a buffer; bodies cut at every length and with every byte changed; radials of every mix of
    /// eight data; every start; counts and first bins around each bound, and the largest grids.
    pub(super) fn exports_fixed(&mut self, seed: u64) {
        for (_, case) in sample::exports() {
            self.exported(&case);
        }
        let rng = &mut Rng::new(seed, u64::MAX / 31);
        let good = plain(body::of_size(rng, Packet::Af1f, 2, 5).bytes);
        for code in 0..=u16::MAX {
            for len in [18, good.len()] {
                let mut body = good[..len].to_vec();
                body[16..18].copy_from_slice(&code.to_be_bytes());
                self.exported(&Case::Export { out: 54, body });
            }
        }
        self.export_widths(rng);
        for (radials, bins) in [(2, 5), (2, 4), (1, 1), (0, 3)] {
            let body = match radials {
                0 => plain([body::header(rng, Packet::Af1f, 0, bins), vec![0, 1, 2]].concat()),
                _ => plain(body::of_size(rng, Packet::Af1f, radials, bins).bytes),
            };
            let length = model::export::length(radials, bins);
            for out in 0..length + 4 {
                self.exported(&Case::Export { out, body: body.clone() });
            }
            for len in 0..body.len() {
                for out in [0, length] {
                    self.exported(&Case::Export { out, body: body[..len].to_vec() });
                }
            }
            for at in 0..body.len() {
                let mut changed = body.clone();
                for value in 0..=255 {
                    changed[at] = value;
                    self.exported(&Case::Export { out: length + 20, body: changed.clone() });
                }
            }
        }
        for body in run_mixes(rng) {
            for out in [56, 60, 100] {
                self.exported(&Case::Export { out, body: plain(body.clone()) });
            }
        }
        self.export_bounds(rng);
    }

    fn export_widths(&mut self, rng: &mut Rng) {
        let schemes = [0, 1, 2, 3, 4].map(|scheme| Scheme::of(scheme, 0.254).unwrap());
        let files = schemes.map(|scheme| plain_file(rng, scheme));
        for bins in 1..=200 {
            let body = plain(body::of_size(rng, Packet::Af1f, 3, bins).bytes);
            let length = model::export::length(3, bins);
            for out in [length - 1, length + 7] {
                self.exported(&Case::Export { out, body: body.clone() });
            }
            let Some(written) = self.exported(&Case::Export { out: length, body: body.clone() }) else { continue };
            for (scheme, file) in schemes.into_iter().zip(&files) {
                let lent = Lent { azimuths: 3 + bins % 2, codes: 3 * bins, physical: 3 * bins + 1 };
                let sweep = Case::Sweep { clock: 1 << 40, scheme, lent, file: file.clone(), body: body.clone() };
                self.swept_alike(&sweep, written.clone());
            }
        }
    }

    fn export_bounds(&mut self, rng: &mut Rng) {
        // every start, and the widths at their bounds
        for width in [1, 50, 100u16] {
            for starts in [0..=0x7fff, 0x8000..=0xffffu16] {
                let mut body = plain(body::header(rng, Packet::Af1f, starts.len(), 1));
                for start in starts.clone() {
                    body.extend([1, start, width].map(u16::to_be_bytes).concat());
                    body.extend([0x17, 0]);
                }
                self.exported(&Case::Export { out: model::export::length(starts.len(), 1), body });
            }
        }
        // the order of 15, 16, 17, 42 and what follows, with nothing behind the counts and with some bytes
        for bins in [0, 1, 2, 61, 62, 255, 256, 32_768, 65_534, 65_535] {
            for radials in [0, 1, 2, 61, 62, 255, 256, 65_535] {
                for first in [0, 1, 0xff, 0x100, 0xffffu16] {
                    for more in [0, 5, 6, 9] {
                        let mut body = body::header(rng, Packet::Af1f, radials, bins);
                        body[18..20].copy_from_slice(&first.to_be_bytes());
                        body.extend(rng.bytes(more));
                        for out in [0, 29, 30] {
                            self.exported(&Case::Export { out, body: body.clone() });
                        }
                    }
                }
            }
        }
        // whole bodies, in buffers just long enough and one place short
        for (radials, bins) in [
            (1, 65_533),
            (1, 65_534),
            (1, 65_535),
            (61, 65_534),
            (61, 65_535),
            (62, 65_535),
            (65_535, 61),
            (2000, 2000),
            (2000, 2001),
        ] {
            let scheme = Scheme::Class;
            let file = plain_file(rng, scheme);
            let body = plain(body::of_size(rng, Packet::Af1f, radials, bins).bytes);
            let out = model::export::length(radials, bins);
            self.exported(&Case::Export { out: out - 1, body: body.clone() });
            let written = self.exported(&Case::Export { out, body: body.clone() });
            let accepts = radials * bins <= 4_000_000 && bins < 65_535;
            self.promise(&format!("an export of {radials} x {bins} cells"), written.is_some() == accepts);
            if let Some(written) = written {
                let lent = Lent { azimuths: radials, codes: radials * bins, physical: radials * bins };
                self.swept_alike(&Case::Sweep { clock: 1 << 40, scheme, lent, file, body }, written);
            }
        }
    }
}

/// The body with first bin 0.
fn plain(mut body: Vec<u8>) -> Vec<u8> {
    body[18..20].fill(0);
    body
}

/// The answer with the packet `to` in place of the packet `from`, if it was that one; a refusal as it is.
fn with_packet(mut answer: Answer, from: Packet, to: Packet) -> Option<Answer> {
    let picture = match &mut answer {
        Answer::Picture(picture) => picture,
        Answer::Sweep(sweep) => &mut sweep.picture,
        _ => return Some(answer),
    };
    let was = std::mem::replace(&mut picture.packet, to);
    (was == from).then_some(answer)
}
