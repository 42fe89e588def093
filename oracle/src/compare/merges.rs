//! M-111 in the runs: two receptions of one body, damaged in radials of which none is in both, merge to its picture or are refused with
//! 44; a body merged with itself is its gap reading.
use super::Compare;
use crate::damage;
use crate::make::{cases, Rng};
use crate::model;
use crate::sample;
use lines::{Answer, Case, Lent, Packet, Refusal, Scheme};

impl Compare {
    /// Merging, and what must hold between it and the port's gap readings of both bodies.
    pub fn merge(&mut self, case: &Case) -> (Answer, Answer) {
        let (want, port) = self.both(case);
        let Case::Merge { clock, scheme, lent, marks, file, body, second } = case.clone() else { unreachable!() };
        let gaps = |body: Vec<u8>| Case::Gaps { clock, scheme, lent, marks, file: file.clone(), body };
        let [(_, first), (_, other)] = [body.clone(), second].map(|body| self.both(&gaps(body)));
        let before_36 = |r: &Refusal| r.number != 36;
        let holds = match (&port, &first, &other) {
            (_, Answer::Refused(r), _) if before_36(r) => matches!(&port, Answer::Refused(p) if p.same(r)),
            (_, _, Answer::Refused(r)) if before_36(r) => matches!(&port, Answer::Refused(p) if p.same(r)),
            (Answer::Gaps(made, marks), Answer::Gaps(one, a), Answer::Gaps(_, b)) => {
                let gap = |m: (&u8, (&u8, &u8))| *m.0 == *m.1 .0 & *m.1 .1;
                let kept = a.iter().any(|m| *m == 1) || made.same(one);
                marks.iter().zip(a.iter().zip(b)).all(gap) && kept
            }
            (Answer::Refused(p), ..) => matches!(p.number, 36 | 43 | 44),
            _ => false,
        };
        if !holds {
            self.differs("not what the gap readings let it be", case, &[("first", &first), ("second", &other), ("port", &port)]);
        }
        // the body with itself
        let itself = gaps(body.clone()).with_second(body);
        let (_, twice) = self.both(&itself);
        self.counts.merge_laws[0] += 1;
        if !twice.same(&first) {
            self.differs("not the gap reading", &itself, &[("gap reading", &first), ("port", &twice)]);
        }
        (want, port)
    }

    /// The theorem: an accepted body, and two that come from it by damage to data bytes of two groups of radials with no radial in both.
    pub fn receptions(&mut self, rng: &mut Rng) {
        let case = cases::accepted(rng);
        let (Answer::Sweep(original), _) = self.both(&case) else { return };
        let radials = original.picture.radials;
        let Case::Sweep { body, .. } = &case else { unreachable!() };
        let layout = model::layout(body);
        for _ in 0..3 {
            let mut bodies = [body.clone(), body.clone()];
            for radial in 0..radials {
                // to neither, to the first or to the second
                if let which @ 0..=1 = rng.below(3) {
                    damage::row(rng, layout.packet, &mut bodies[which][layout.data[radial].clone()]);
                }
            }
            let other = (0..radials).find(|radial| {
                let data = layout.data[*radial].clone();
                let row = |bytes: &[u8]| model::row(layout.packet, layout.bins, *radial, &bytes[data.clone()]).ok();
                bodies.iter().any(|b| row(b).is_some() && row(b) != row(body))
            });
            let want = match other {
                Some(radial) => Answer::Refused(Refusal::new(44, &[radial as i128])),
                None => Answer::Gaps(original.clone(), vec![0; radials]),
            };
            let [one, second] = bodies;
            let mut first = case.clone();
            if let Case::Sweep { body, .. } = &mut first {
                *body = one;
            }
            let case = first.with_marks(radials + rng.below(3)).with_second(second);
            let (reference, port) = self.merge(&case);
            self.counts.merge_laws[1 + other.is_some() as usize] += 1;
            for (who, answer) in [("reference", &reference), ("port", &port)] {
                if !want.same(answer) {
                    self.differs("not the original, nor 44 of a row of other codes", &case, &[("wanted", &want), (who, answer)]);
                }
            }
        }
    }

    /// The list's cases; every mix of whole rows, gaps and other codes in two bodies of two radials, with every buffer around its bound;
    /// and bodies that differ in one byte, each after the other.
    pub(super) fn merges_fixed(&mut self, seed: u64) {
        for (_, case) in sample::merges() {
            self.merge(&case);
        }
        let rng = &mut Rng::new(seed, u64::MAX / 31);
        let file = super::fixed::plain_file(rng, Scheme::Class);
        let (clock, scheme) = (1 << 40, Scheme::Class);
        for packet in Packet::ALL {
            let bodies = cases::rows_of_every_kind(rng, packet);
            for first in &bodies {
                for second in &bodies {
                    for mix in 0..4usize.pow(4) {
                        let [azimuths, codes, physical, marks] =
                            [(2, 1), (6, 4), (6, 16), (2, 64)].map(|(need, unit)| [0, need - 1, need, need + 2][mix / unit % 4]);
                        if mix % 37 != 0 && (azimuths < 2 || codes < 6) {
                            continue;
                        }
                        let lent = Lent { azimuths, codes, physical };
                        let case = Case::Gaps { clock, scheme, lent, marks, file: file.clone(), body: first.clone() };
                        self.both(&case.with_second(second.clone()));
                    }
                }
            }
            let body = &bodies[0];
            let lent = Lent { azimuths: 3, codes: 9, physical: 9 };
            for at in 0..body.len() {
                for value in [0, 1, 0x10, 0x7f, 0x80, 0xff] {
                    let mut changed = body.clone();
                    changed[at] = value;
                    let [one, other] = if value % 2 == 0 { [body, &changed] } else { [&changed, body] };
                    let case = Case::Gaps { clock, scheme, lent, marks: 3, file: file.clone(), body: one.clone() };
                    self.merge(&case.with_second(other.clone()));
                }
            }
        }
    }
}
