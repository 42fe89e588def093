//! M-112 in the runs: the fixed cases, and what must hold between the reading by the archive profile and the ordinary one.
use super::fixed::{plain_file, run_mixes, whole};
use super::Compare;
use crate::make::{body, Rng};
use crate::sample;
use lines::{Answer, Case, Lent, Packet, Scheme};

impl Compare {
    /// A reading by the profile beside the port's ordinary reading of the same input.
    pub fn strict(&mut self, case: &Case) {
        let (_, ordinary) = self.both(&case.clone().ordinary());
        let (_, port) = self.both(case);
        let holds = match (&port, &ordinary) {
            (Answer::Sweep(a), Answer::Sweep(b)) => a.same(b),
            (Answer::Refused(r), Answer::Sweep(_)) => matches!(r.number, 45 | 46),
            (Answer::Refused(r), Answer::Refused(o)) => {
                r.same(o) || matches!(r.number, 45 | 46) && matches!(o.number, 9 | 10 | 36)
            }
            _ => false,
        };
        if !holds {
            self.differs("not what the ordinary reading lets it be", case, &[("ordinary", &ordinary), ("port", &port)]);
        }
    }

    /// What was exported gets the ordinary answer from the profile.
    pub(super) fn export_passes(&mut self, sweep: &Case, ordinary: &Answer) {
        let case = sweep.clone().strict();
        let (_, port) = self.both(&case);
        self.counts.strict_exports += 1;
        if !ordinary.same(&port) {
            self.differs("an export does not pass the profile", &case, &[("ordinary", ordinary), ("port", &port)]);
        }
    }

    /// The lines of the list; the counts from bins to bins + 4 with three last bytes, of rows of every length up to 40 bins; AF1F rows
    /// with two bytes behind them, the first any; radials of every mix of eight data; every packet under every scheme with and without surplus, in buffers that are too
    /// short too; tails of every packet and of clear scans; bodies cut at every length and with every byte changed.
    pub(super) fn strict_fixed(&mut self, seed: u64) {
        for (_, case) in sample::strict() {
            self.strict(&case);
        }
        let rng = &mut Rng::new(seed, u64::MAX / 37);
        let file = plain_file(rng, Scheme::Class);
        let read = |body: Vec<u8>| {
            let lent = Lent { azimuths: 4, codes: 200, physical: 200 };
            Case::Strict { clock: 1 << 40, scheme: Scheme::Class, lent, file: file.clone(), body }
        };
        for bins in 1..=40 {
            for more in 0..=4 {
                for last in [0, 1, 255] {
                    let mut body = body::header(rng, Packet::P16, 2, bins);
                    for more in [0, more] {
                        body.extend([(bins + more) as u16, 0, 10].map(u16::to_be_bytes).concat());
                        body.extend(rng.bytes(bins + more));
                    }
                    *body.last_mut().unwrap() = last;
                    self.strict(&read(body));
                }
            }
        }
        for high in 0..=255 {
            for low in [0, 0x0f, 0x10, 0x1f, 0x20, 0xff] {
                let mut body = body::header(rng, Packet::Af1f, 1, 5);
                body.extend([2, 0, 10].map(u16::to_be_bytes).concat());
                body.extend([0x31, 0x25, high, low]);
                self.strict(&read(body));
            }
        }
        for body in run_mixes(rng) {
            for tail in [0, 1] {
                self.strict(&read([&body[..], &vec![0; tail]].concat()));
            }
        }
        self.strict_ends(rng);
    }

    fn strict_ends(&mut self, rng: &mut Rng) {
        for packet in Packet::ALL {
            for scheme in 0..5 {
                let scheme = Scheme::of(scheme, 0.254).unwrap();
                let file = plain_file(rng, scheme);
                for _ in 0..40 {
                    let body = body::archived(rng, packet);
                    for places in [body.cells().max(body.radials), 0] {
                        let lent = Lent { azimuths: places, codes: places, physical: places };
                        let (file, body) = (file.clone(), body.bytes.clone());
                        self.strict(&Case::Strict { clock: 1 << 40, scheme, lent, file, body });
                    }
                }
                if packet != Packet::P28 {
                    for (bins, tail) in [0, 1, 2, 65_535].into_iter().flat_map(|b| [0, 1, 2, 6, 9].map(|t| (b, t))) {
                        let mut body = body::header(rng, packet, 0, bins);
                        body.extend(rng.bytes(tail));
                        self.strict(&whole(scheme, &file, body).strict());
                    }
                }
            }
            let file = plain_file(rng, Scheme::Class);
            let good = body::of_size(rng, packet, 2, 3).bytes;
            for len in 0..good.len() {
                self.strict(&whole(Scheme::Class, &file, good[..len].to_vec()).strict());
            }
            for at in 0..good.len() {
                let mut changed = good.clone();
                for value in 0..=255 {
                    changed[at] = value;
                    self.strict(&whole(Scheme::Class, &file, changed.clone()).strict());
                }
            }
        }
    }
}
