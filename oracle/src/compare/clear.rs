//! M-107 in the runs: clear scans in every reading, and that those which agree on the bytes that are read are answered alike.
use super::fixed::plain_file;
use super::Compare;
use crate::make::plans::{self, Record};
use crate::make::{body, cases, Rng};
use crate::model;
use crate::sample;
use lines::{Answer, Case, Lent, Packet, Scheme};
use Record::{Field, Raw, Strip};

impl Compare {
    /// A clear scan, or what is nearly one, in every reading; then others that agree with it on the bytes that are read, of any length and
    /// in other buffers.
    pub fn clear(&mut self, rng: &mut Rng) {
        let case = cases::clear(rng);
        let first = self.every_reading(&case, rng.below(3));
        let Case::Plan { body, .. } = &case else { unreachable!() };
        if !model::has_no_radials(body) {
            return;
        }
        for _ in 0..2 {
            let again = cases::alike(rng, &case);
            let second = self.every_reading(&again, rng.below(3));
            self.counts.clear_alike += 1;
            for (one, other) in first.iter().zip(&second).filter(|(one, other)| !one.same(other)) {
                self.differs("not the answer to the bytes that are read", &again, &[("before", one), ("port", other)]);
            }
        }
    }

    /// The port's answers to a plan's input: symbology alone, the ordinary reading, that with gaps, that with the plan.
    fn every_reading(&mut self, case: &Case, marks: usize) -> [Answer; 4] {
        let sweep = case.clone().ordinary();
        let Case::Sweep { body, .. } = &sweep else { unreachable!() };
        let (_, alone) = self.both(&Case::Sym { body: body.clone() });
        let (_, ordinary) = self.both(&sweep);
        let (_, gaps) = self.gaps(&sweep.with_marks(marks), &ordinary);
        let (_, plan) = self.plan(case);
        [alone, ordinary, gaps, plan]
    }

    /// Both packets under every scheme, with good scale fields and with a step or scale of 0: every first bin, number of bins and length
    /// around each bound, in buffers of no places and of some; every length up to a few bytes more than the header, and every byte of it.
    pub(super) fn clear_fixed(&mut self, seed: u64) {
        for (_, case) in sample::clear() {
            match case {
                Case::Plan { .. } => drop(self.plan(&case)),
                Case::Gaps { .. } => self.both_readings(&case),
                _ => drop(self.both(&case)),
            }
        }
        let rng = &mut Rng::new(seed, u64::MAX / 29);
        let plan = plans::bytes(&[Field(7), Field(3)]);
        for packet in [Packet::P16, Packet::Af1f] {
            for scheme in 0..5 {
                let scheme = Scheme::of(scheme, 0.254).unwrap();
                let good = plain_file(rng, scheme);
                let mut flat = good.clone();
                let block = model::header_place(&flat).unwrap() + 18;
                flat[block + 42..block + 46].fill(0);
                for (bins, first) in [0, 1, 2, 255, 256, 65_535].into_iter().flat_map(|b| [0, 1, 256].map(|f| (b, f))) {
                    for (file, more) in [&good, &flat].into_iter().flat_map(|f| [0, 1, 6, 9].map(|m| (f, m))) {
                        let mut body = body::header(rng, packet, 0, bins);
                        body[18..20].copy_from_slice(&(first as u16).to_be_bytes());
                        body.extend(rng.bytes(more));
                        for places in [0, 2] {
                            self.every_reading(&read_in(places, scheme, file, &body).with_plan(2, plan.clone()), places);
                        }
                    }
                }
            }
            let file = plain_file(rng, super::plans::PRECIP);
            let body = [body::header(rng, packet, 0, 5), vec![0, 0, 0, 9]].concat();
            let reading =
                |body: &[u8], plan: &[u8]| read_in(1, super::plans::PRECIP, &file, body).with_plan(2, plan.to_vec());
            for len in 0..=body.len() {
                self.every_reading(&reading(&body[..len], &plan), 0);
            }
            for at in 0..body.len() {
                let mut changed = body.clone();
                for value in 0..=255 {
                    changed[at] = value;
                    self.every_reading(&reading(&changed, &plan), 1);
                }
            }
            for records in [
                vec![],
                vec![Field(1)],
                vec![Field(1), Strip([0, 0, 1, 1])],
                vec![Field(1), Field(2), Strip([0, 0, 5, 0]), Strip([1, 0, 1, 1])],
                vec![Field(1), Strip([0, 0, 1, 1]), Field(1)],
                vec![Field(1), Strip([0, 0, 0, 1])],
                vec![Strip([0, 0, 1, 1]), Field(1)],
                vec![Field(1), Strip([0, 0, 1, 1]), Raw(vec![3])],
                vec![Field(1), Field(2), Field(3)],
                vec![Field(1), Strip([0, 0, 1, 1]), Field(2), Field(3)],
            ] {
                self.every_reading(&reading(&body, &plans::bytes(&records)), 0);
            }
        }
    }
}

/// A sweep's input, in buffers of so many places each.
fn read_in(places: usize, scheme: Scheme, file: &[u8], body: &[u8]) -> Case {
    let lent = Lent { azimuths: places, codes: places, physical: places };
    Case::Sweep { clock: 1 << 40, scheme, lent, file: file.to_vec(), body: body.to_vec() }
}
