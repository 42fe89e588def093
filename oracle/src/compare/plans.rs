//! M-104 in the runs: the fixed cases, and its laws between the port's own answers.
use super::fixed::{plain_file, spoil, whole};
use super::Compare;
use crate::make::body;
use crate::make::plans::{self, Record};
use crate::make::{cases, Rng};
use crate::model::{self, plans::MOST, Layout};
use crate::sample;
use crate::trap;
use lines::{Answer, Case, Lent, Packet, Picture, Refusal, Scheme, Sweep};
use std::ops::Range;
use Record::{Field, Raw, Strip};

pub(super) const PRECIP: Scheme = Scheme::Precip(0.254);

/// Codes, radials and bins.
type Alone<'a> = (&'a [u16], usize, usize);
/// The totals alone, or what is refused.
type Totals = Result<Vec<u64>, Refusal>;

impl Compare {
    /// A field plan, and what must hold between it and the port's ordinary reading of the same input: the picture is the sweep's, and
    /// so are its refusals, but for 10.
    pub fn plan(&mut self, case: &Case) -> (Answer, Answer) {
        let (_, ordinary) = self.both(&case.clone().ordinary());
        let (want, port) = self.both(case);
        let precip = matches!(case, Case::Plan { scheme: Scheme::Precip(_), .. });
        let of_plan = |r: &Refusal| matches!(r.number, 37..=39) || r.same(&Refusal::new(36, &[4]));
        let holds = match (&port, &ordinary) {
            (Answer::Totals(with, _), Answer::Sweep(alone)) => precip && with.same(alone),
            (Answer::Refused(r), Answer::Sweep(_)) if precip => of_plan(r),
            (Answer::Refused(r), Answer::Sweep(_)) => r.number == 10,
            (Answer::Refused(r), Answer::Refused(alone)) if !precip && matches!(alone.number, 9 | 36) => r.number == 10,
            (Answer::Refused(r), Answer::Refused(alone)) => r.same(alone),
            _ => false,
        };
        if !holds {
            self.differs("not what the ordinary reading lets it be", case, &[("ordinary", &ordinary), ("port", &port)]);
        }
        if let Answer::Sweep(alone) = &ordinary {
            self.totals_alone(case, &port, &alone.picture);
        }
        (want, port)
    }

    /// The totals alone, of the ordinary reading's codes: what the reading with the plan gives or refuses of the plan, and 36 with one
    /// code fewer, or for a picture of 2^64 cells. Codes behind those of the cells leave the totals.
    fn totals_alone(&mut self, case: &Case, port: &Answer, picture: &Picture) {
        let Case::Plan { file, scheme: Scheme::Precip(_), plan, totals: lent, .. } = case else { return };
        let want = match port {
            Answer::Totals(_, totals) => Ok(totals.clone()),
            Answer::Refused(refusal) => Err(*refusal),
            _ => return,
        };
        let block = trap::during(case, || self.port.block(file));
        let (of_file, plan, short) = ((&file[..], block), (&plan[..], *lent), Err(Refusal::new(36, &[1])));
        let (codes, radials, bins) = (&picture.codes[..], picture.radials, picture.bins);
        self.hold_alone(case, of_file, (codes, radials, bins), plan, &want);
        self.hold_alone(case, of_file, (codes, 1 << 32, 1 << 32), plan, &short);
        if let Some(fewer) = codes.len().checked_sub(1) {
            self.hold_alone(case, of_file, (&codes[..fewer], radials, bins), plan, &short);
        }
        if want.is_ok() {
            // more than one for each row
            let longer = [codes, &vec![9; radials + 1]].concat();
            self.hold_alone(case, of_file, (&longer, radials, bins), plan, &want);
        }
    }

    /// One call for the totals alone, of a plan in a buffer of so many places.
    fn hold_alone(
        &mut self,
        case: &Case,
        of_file: (&[u8], usize),
        picture: Alone,
        (plan, lent): (&[u8], usize),
        want: &Totals,
    ) {
        self.counts.totals_alone[0] += 1;
        let given = trap::during(case, || self.port.plan_totals(of_file, picture, plan, lent));
        let fault = self.port.take_fault();
        let same = match (&given, want) {
            (Ok(totals), Ok(wanted)) => totals == wanted,
            (Err(refusal), Err(wanted)) => refusal.same(wanted),
            _ => false,
        };
        if !same || fault.is_some() {
            let (codes, radials, bins) = picture;
            let of = format!("the totals alone of {} codes for {radials} radials of {bins} bins", codes.len());
            let why = format!("{of} are {given:?}, wanted are {want:?} {}", fault.unwrap_or_default());
            self.differs(&why, case, &[]);
        }
    }

    /// Scale fields that are refused are so for the totals alone too, whatever the codes of a picture of 2 × 3 cells are.
    pub(super) fn totals_unscaled(&mut self, case: &Case, refusal: &Refusal, codes: &[u16], plan: (&[u8], usize)) {
        let Case::Prc { file, block, .. } = case else { return };
        self.counts.totals_alone[1] += 1;
        self.hold_alone(case, (file, *block), (codes, 2, 3), plan, &Err(*refusal));
    }

    /// An accepted plan; with a strip cut in two, with a strip moved, and with another code in one cell.
    pub fn plan_laws(&mut self, rng: &mut Rng) {
        let (case, records) = cases::good_plan(rng);
        let (Answer::Totals(want, _), Answer::Totals(sweep, totals)) = self.plan(&case) else { return };
        if totals.len() != plans::fields(&records) || !want.same(&sweep) {
            return;
        }
        for (law, records) in [plans::cut_strip(rng, &records), plans::move_strip(rng, &records)].into_iter().enumerate() {
            if let Some(records) = records {
                let mut again = case.clone();
                let Case::Plan { plan, .. } = &mut again else { unreachable!() };
                *plan = plans::bytes(&records);
                self.hold_totals(law, &again, &totals);
            }
        }
        self.one_code(rng, &case, &records, (&sweep, &totals));
    }

    /// The port's totals of a plan, if it accepts it, must be these.
    fn hold_totals(&mut self, law: usize, case: &Case, totals: &[u64]) {
        let (_, again) = self.both(case);
        let Answer::Totals(_, given) = &again else { return };
        self.counts.plan_laws[law] += 1;
        if given != totals {
            let what = ["a strip cut in two", "a strip moved", "another code in a cell"][law];
            self.differs(&format!("{what}: the totals must be {totals:?}"), case, &[("port", &again)]);
        }
    }

    /// One cell's code moves by d, valid before and after: each total moves by d × the weights of its strips over the cell.
    fn one_code(&mut self, rng: &mut Rng, case: &Case, records: &[Record], (sweep, totals): (&Sweep, &[u64])) {
        let mut again = case.clone();
        let Case::Plan { file, body, .. } = &mut again else { unreachable!() };
        let (floor, ceiling) = model::valid_codes(file, model::header_place(file).unwrap() + 18);
        let (layout, bins) = (model::layout(body), sweep.picture.bins);
        let held = [255, 15, 65_535][layout.packet as usize];
        let valid = usize::from(floor)..=held.min(ceiling.unwrap_or(u16::MAX)).into();
        let codes = sweep.picture.codes.iter().enumerate().filter(|(_, code)| valid.contains(&usize::from(**code)));
        let places = codes.filter_map(|(cell, _)| Some((cell, code_place(&layout, body, cell / bins, cell % bins)?)));
        let places: Vec<(usize, Range<usize>)> = places.collect();
        if places.is_empty() {
            return;
        }
        let (cell, place) = places[rng.below(places.len())].clone();
        let code = rng.between(*valid.start(), *valid.end());
        let bytes = match layout.packet {
            Packet::P16 => vec![code as u8],
            Packet::Af1f => vec![0x10 | code as u8],
            Packet::P28 => (code as u32).to_be_bytes().to_vec(),
        };
        body[place].copy_from_slice(&bytes);
        let moved_by = code as i128 - i128::from(sweep.picture.codes[cell]);
        let mut wanted: Vec<i128> = totals.iter().map(|total| i128::from(*total)).collect();
        let mut field = 0;
        for record in records {
            match record {
                Field(_) => field += 1,
                Strip([radial, first, count, weight]) => {
                    let row = usize::from(*radial) * bins + usize::from(*first);
                    if (row..row + usize::from(*count)).contains(&cell) {
                        wanted[field - 1] += moved_by * i128::from(*weight);
                    }
                }
                Raw(_) => {}
            }
        }
        let wanted: Vec<u64> = wanted.into_iter().map(|total| total as u64).collect();
        self.hold_totals(2, &again, &wanted);
    }

    pub(super) fn plans_fixed(&mut self, seed: u64) {
        for (_, case) in sample::plans() {
            self.plan(&case);
        }
        let rng = &mut Rng::new(seed, u64::MAX / 23);
        let file = plain_file(rng, PRECIP);
        for packet in Packet::ALL {
            let body = body::of_size(rng, packet, 2, 5).bytes;
            self.every_strip(&file, &body);
            self.every_pair_of_faults(&file, &body);
            self.every_byte_of_a_plan(&file, &body);
            self.plans_in_every_lent(&file, &body);
            self.plans_by_scheme(rng, packet);
            self.every_amount(rng, packet);
        }
        self.totals_of_refused_scales(&file);
        for packet in [Packet::Af1f, Packet::P28] {
            self.totals_of_merged(rng, packet);
        }
        let body = body::of_size(rng, Packet::P16, 2, 5).bytes;
        self.most_strips(&file, &body);
        self.most_fields(&file, &body);
        self.greatest_total(rng);
    }

    fn plan_of(&mut self, file: &[u8], body: &[u8], totals: usize, plan: Vec<u8>) {
        self.plan(&whole(PRECIP, file, body.to_vec()).with_plan(totals, plan));
    }

    /// A strip of every place and length around the ends of a grid of 2 × 5, and where first gate and count add up to more than 16 bits
    /// hold.
    fn every_strip(&mut self, file: &[u8], body: &[u8]) {
        let far = [0, 1, 4, 5, 6, 0x7fff, 0x8000, 0xfffa, 0xfffb, 0xfffe, 0xffff];
        let near = (0..8).flat_map(|first| (0..8).map(move |count| (first, count)));
        let all = near.chain(far.into_iter().flat_map(|first| far.map(|count| (first, count))));
        for (first, count) in all {
            for radial in [0, 1, 2, 3, 0x100, 0xffff] {
                let records = [Field(9), Strip([0, 0, 1, 3]), Strip([radial, first, count, 2])];
                self.plan_of(file, body, 1, plans::bytes(&records));
            }
        }
    }

    /// Two records, each of them good or at fault in one of the ways, with good ones around them; whole, and cut at the end.
    fn every_pair_of_faults(&mut self, file: &[u8], body: &[u8]) {
        let good = Strip([1, 1, 3, 0xffff]);
        let faults = [
            good.clone(),
            Field(8),
            Field(7),
            Field(9),
            Strip([0, 0, 0, 1]),
            Strip([2, 0, 1, 1]),
            Strip([0, 3, 3, 1]),
            Strip([1, 0xffff, 1, 1]),
            Strip([0xffff, 0, 0, 0]),
            Raw(vec![0, 0, 2, 0, 7]),
            Raw(vec![3, 0, 0]),
            Raw(vec![1, 0, 3, 0, 8, 0]),
            Raw(vec![2, 0, 6, 0, 0, 0, 0, 0, 1]),
            Raw(vec![1, 2, 0, 0, 8]),
        ];
        for (one, other) in faults.iter().flat_map(|one| faults.iter().map(move |other| (one, other))) {
            for first in [Field(7), good.clone()] {
                let records = [first, good.clone(), one.clone(), good.clone(), other.clone(), Field(9), good.clone()];
                let plan = plans::bytes(&records);
                for cut in [0, 1, 11] {
                    self.plan_of(file, body, 4, plan[..plan.len() - cut].to_vec());
                }
            }
        }
    }

    /// A good plan cut at every length, and with every byte changed.
    fn every_byte_of_a_plan(&mut self, file: &[u8], body: &[u8]) {
        let strips = [Strip([0, 0, 5, 1]), Strip([1, 2, 2, 300])];
        let plan = plans::bytes(&[&[Field(7)], &strips[..], &[Field(300), strips[0].clone(), Field(1)]].concat());
        for len in 0..=plan.len() {
            self.plan_of(file, body, 3, plan[..len].to_vec());
        }
        for at in 0..plan.len() {
            let mut changed = plan.clone();
            for value in [0, 1, 2, 3, 4, 5, 8, 9, 0x10, 0x7f, 0x80, 0xff] {
                changed[at] = value;
                self.plan_of(file, body, 4, changed.clone());
            }
        }
    }

    /// Every buffer one place short, just long enough and longer, or nothing, with plans of every refusal.
    fn plans_in_every_lent(&mut self, file: &[u8], body: &[u8]) {
        let strip = Strip([1, 0, 5, 2]);
        let plans = [
            vec![],
            vec![Field(5), strip.clone(), Field(4)],
            vec![Field(5), strip.clone(), Field(4), Raw(vec![1])],
            vec![Field(5), strip, Field(5)],
            vec![Field(5), Strip([2, 0, 1, 1]), Field(4)],
        ];
        for mix in 0..4usize.pow(4) {
            let [azimuths, codes, physical, totals] =
                [(2, 1), (10, 4), (10, 16), (2, 64)].map(|(need, unit)| [0, need - 1, need, need + 2][mix / unit % 4]);
            for plan in &plans {
                let lent = Lent { azimuths, codes, physical };
                let (file, body) = (file.to_vec(), body.to_vec());
                let sweep = Case::Sweep { clock: 1 << 40, scheme: PRECIP, lent, file, body };
                self.plan(&sweep.with_plan(totals, plans::bytes(plan)));
            }
        }
    }

    /// Every scheme with good and bad scale fields, bodies, buffers and plans: where 10 stands.
    fn plans_by_scheme(&mut self, rng: &mut Rng, packet: Packet) {
        for scheme in 0..5 {
            let scheme = Scheme::of(scheme, 0.254).unwrap();
            let good = plain_file(rng, scheme);
            let mut flat = good.clone();
            // a step or a scale of 0
            let block = model::header_place(&flat).unwrap() + 18;
            flat[block + 42..block + 46].fill(0);
            let body = body::of_size(rng, packet, 2, 5).bytes;
            let mut spoilt = body.clone();
            spoil(&mut spoilt, 1);
            for file in [&good, &flat, &good[..block + 42].to_vec(), &vec![]] {
                for body in [&body, &spoilt, &body[..body.len().min(60)].to_vec(), &body[..20].to_vec(), &vec![]] {
                    for plan in [vec![Field(1), Strip([0, 0, 5, 1])], vec![Raw(vec![9])]] {
                        for places in [0, 20] {
                            let lent = Lent { azimuths: places, codes: places, physical: places };
                            let (file, body) = (file.clone(), body.clone());
                            let sweep = Case::Sweep { clock: 1 << 40, scheme, lent, file, body };
                            self.plan(&sweep.with_plan(places, plans::bytes(&plan)));
                        }
                    }
                }
            }
        }
    }

    /// Floors and ceilings of every kind, and a field for each cell of a row that has every code, or those around each bound.
    fn every_amount(&mut self, rng: &mut Rng, packet: Packet) {
        let codes: Vec<u16> = match packet {
            Packet::P16 => (0..=255).collect(),
            Packet::Af1f => (0..16).collect(),
            Packet::P28 => (0..20).chain(240..260).chain(0x7ff0..0x8010).chain(0xffe0..=0xffff).collect(),
        };
        let body = row_of(rng, packet, &codes);
        let cells = (0..codes.len() as u16).flat_map(|cell| [Field(cell), Strip([0, cell, 1, 1000 + cell])]);
        let plan = plans::bytes(&cells.collect::<Vec<_>>());
        for flags in [
            [250, 1, 2],
            [255, 0, 0],
            [12, 2, 1],
            [0, 1, 2],
            [255, 9, 0],
            [255, 1, 9],
            [1, 1, 1],
            [5, 8, 8],
            [7, 8, 0],
            [8, 8, 0],
            [9, 8, 0],
            [0xffff, 0, 0],
            [0xffff, 8, 8],
            [0x8000, 3, 1],
            [0xffff, 0xffff, 0],
        ] {
            let file = with_flags(plain_file(rng, PRECIP), flags);
            let lent = Lent { azimuths: 1, codes: codes.len(), physical: codes.len() };
            let sweep = Case::Sweep { clock: 1 << 40, scheme: PRECIP, lent, file, body: body.clone() };
            self.plan(&sweep.with_plan(codes.len(), plan.clone()));
        }
    }

    /// The totals alone where the scale fields are refused with 3, 7 and 8: of codes that are enough, too few and more, with plans of every
    /// refusal.
    fn totals_of_refused_scales(&mut self, file: &[u8]) {
        let block = model::header_place(file).unwrap() + 18;
        let with = |scale: f32, offset: f32| {
            let mut file = file.to_vec();
            file[block + 42..block + 46].copy_from_slice(&scale.to_be_bytes());
            file[block + 46..block + 50].copy_from_slice(&offset.to_be_bytes());
            file
        };
        let cut = [0, 42, 45, 49, 53, 55, 57].map(|len| (3, file[..block + len].to_vec()));
        let scales = [0.0, -0.0, f32::INFINITY, f32::NAN].map(|scale| (7, with(scale, f32::NAN)));
        let offsets = [f32::INFINITY, f32::NEG_INFINITY, f32::NAN].map(|offset| (8, with(16.0, offset)));
        let strip = Strip([1, 0, 3, 2]);
        let plans = [
            vec![],
            vec![Field(5), strip.clone(), Field(4)],
            vec![Field(5), strip.clone(), Raw(vec![1])],
            vec![Field(5), strip, Field(5)],
            vec![Field(5), Strip([2, 0, 1, 1])],
        ];
        for (number, file) in [&cut[..], &scales, &offsets].concat() {
            let case = Case::Prc { file, block, factor: 0.254 };
            let (want, _) = self.both(&case);
            let refusal = want.refusal().filter(|refusal| refusal.number == number).copied();
            self.promise(&format!("{number} is wanted of the scale fields"), refusal.is_some());
            let Some(refusal) = refusal else { continue };
            for codes in [0, 5, 6, 7] {
                for plan in &plans {
                    for lent in [0, 2] {
                        self.totals_unscaled(&case, &refusal, &vec![9; codes], (&plans::bytes(plan), lent));
                    }
                }
            }
        }
    }

    /// The totals alone of two receptions merged, with every mix of damaged radials: those worked out from the body's own picture with
    /// codes 0 in the gaps.
    fn totals_of_merged(&mut self, rng: &mut Rng, packet: Packet) {
        let rows = [0, 1, 2].map(|radial| vec![Field(radial), Strip([radial, 0, 5, 3]), Strip([radial, 1, 3, 0xffff])]);
        let plans =
            [rows.concat(), vec![Field(7), Strip([3, 0, 1, 1])], vec![Field(7), Field(7)], vec![Raw(vec![9])], vec![]];
        for flags in [[250, 1, 2], [0xffff, 0, 0], [0, 1, 2]] {
            let file = with_flags(plain_file(rng, PRECIP), flags);
            let block = model::header_place(&file).unwrap() + 18;
            let body = body::of_size(rng, packet, 3, 5).bytes;
            let (original, _) = self.both(&whole(PRECIP, &file, body.clone()));
            let Answer::Sweep(original) = original else { continue };
            for mix in 0..64 {
                let damaged = |which: usize| {
                    let mut body = body.clone();
                    (0..3).filter(|radial| mix >> (3 * which + radial) & 1 == 1).for_each(|radial| spoil(&mut body, radial));
                    body
                };
                let case = whole(PRECIP, &file, damaged(0)).with_marks(3).with_second(damaged(1));
                let (_, port) = self.both(&case);
                let Answer::Gaps(merged, _) = &port else { continue };
                let mut picture = original.picture.clone();
                for radial in (0..3).filter(|radial| mix >> radial & mix >> (3 + radial) & 1 == 1) {
                    picture.codes[5 * radial..5 * (radial + 1)].fill(0);
                }
                for plan in plans.each_ref().map(|records| plans::bytes(records)) {
                    let made = model::plans::totals(&plan, &picture, model::valid_codes(&file, block));
                    for lent in [0, 2, 3, 4] {
                        let want = made.clone().and_then(|totals| match totals.len() {
                            len if len > lent => Err(Refusal::new(36, &[4])),
                            _ => Ok(totals),
                        });
                        self.counts.totals_alone[2] += 1;
                        self.hold_alone(&case, (&file, block), (&merged.picture.codes, 3, 5), (&plan, lent), &want);
                    }
                }
            }
        }
    }

    /// As many strips as there may be and one or two more: in one field, in two, each in its own; with another fault before or behind.
    fn most_strips(&mut self, file: &[u8], body: &[u8]) {
        let strip = |k: usize| Strip([k as u16 % 2, k as u16 % 5, 1, k as u16]);
        for strips in MOST - 1..=MOST + 2 {
            for in_field in [strips, strips.div_ceil(2), 1] {
                let mut records = vec![];
                for k in 0..strips {
                    if k % in_field == 0 {
                        records.push(Field((k / in_field) as u16));
                    }
                    records.push(strip(k));
                }
                let more = [vec![], vec![Field(0)], vec![Strip([7, 0, 1, 1])], vec![Raw(vec![1, 0, 2, 0])]];
                for (before, behind) in more.iter().flat_map(|one| more.iter().map(move |other| (one, other))) {
                    let plan = plans::bytes(&[&records[..1], before, &records[1..], behind].concat());
                    self.plan_of(file, body, MOST + 4, plan);
                }
            }
        }
    }

    /// A field for every number, and one more.
    fn most_fields(&mut self, file: &[u8], body: &[u8]) {
        let numbers = (0..=0xffff).map(|k: u16| k.wrapping_mul(0x9e37));
        let mut records: Vec<Record> = numbers.map(Field).collect();
        records.push(Strip([1, 0, 5, 0xffff]));
        for totals in [0xffff, 0x10000] {
            self.plan_of(file, body, totals, plans::bytes(&records));
        }
        records.push(Field(0x8000));
        self.plan_of(file, body, 0x10000, plans::bytes(&records));
    }

    /// The greatest total that there is: all strips over the longest row, all numbers as large as 16 bits hold.
    fn greatest_total(&mut self, rng: &mut Rng) {
        let codes = vec![0xffff; 0xffff];
        let body = row_of(rng, Packet::P28, &codes);
        let file = with_flags(plain_file(rng, PRECIP), [0xffff, 0, 0]);
        let mut records = vec![Field(0xffff)];
        records.resize(1 + MOST, Strip([0, 0, 0xffff, 0xffff]));
        let lent = Lent { azimuths: 1, codes: codes.len(), physical: codes.len() };
        let sweep = Case::Sweep { clock: 1 << 40, scheme: PRECIP, lent, file, body };
        let (_, port) = self.plan(&sweep.with_plan(1, plans::bytes(&records)));
        let greatest = 4096 * 0xffff_u64.pow(3);
        self.promise("the greatest total", matches!(port, Answer::Totals(_, totals) if totals == [greatest]));
    }
}

/// Where the code of one cell stands by itself: in AF1F that of a run of one cell.
fn code_place(layout: &Layout, body: &[u8], radial: usize, gate: usize) -> Option<Range<usize>> {
    let data = layout.data[radial].clone();
    match layout.packet {
        Packet::P16 => Some(data.start + gate..data.start + gate + 1),
        Packet::P28 => Some(data.start + 4 * gate..data.start + 4 * gate + 4),
        Packet::Af1f => {
            let runs = data.scan(0, |sum, at| {
                let from = *sum;
                *sum += usize::from(body[at] >> 4);
                Some((from, at))
            });
            runs.take_while(|(from, _)| *from <= gate)
                .find(|(from, at)| *from == gate && body[*at] >> 4 == 1)
                .map(|(_, at)| at..at + 1)
        }
    }
}

/// A body of one radial with these codes.
fn row_of(rng: &mut Rng, packet: Packet, codes: &[u16]) -> Vec<u8> {
    if packet == Packet::Af1f {
        let mut body = body::header(rng, packet, 1, codes.len());
        body.extend([codes.len() as u16 / 2, 10, 10].map(u16::to_be_bytes).concat());
        body.extend(codes.iter().map(|code| 0x10 | *code as u8));
        return body;
    }
    let mut body = body::of_size(rng, packet, 1, codes.len()).bytes;
    let data = model::layout(&body).data[0].clone();
    let bytes: Vec<u8> = match packet {
        Packet::P16 => codes.iter().map(|code| *code as u8).collect(),
        _ => codes.iter().flat_map(|code| u32::from(*code).to_be_bytes()).collect(),
    };
    body[data.start..data.start + bytes.len()].copy_from_slice(&bytes);
    body
}

/// A file with other fields 27, 28 and 29: largest, leading, trailing.
pub(super) fn with_flags(mut file: Vec<u8>, flags: [u16; 3]) -> Vec<u8> {
    let at = model::header_place(&file).unwrap() + 18 + 52;
    file[at..at + 6].copy_from_slice(&flags.map(u16::to_be_bytes).concat());
    file
}
