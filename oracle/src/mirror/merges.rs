//! Two receptions once more, from document 02's sentences, with a place for each slip.
use super::{answer, slips, Slip::*};
use lines::{same_f32, same_f64, Answer, Case, Geometry, Lent, Picture, Refusal, Sweep};

struct Reading {
    sweep: Box<Sweep>,
    marks: Vec<u8>,
}

fn refused(number: u32, ints: &[i128]) -> Answer {
    Answer::Refused(Refusal::new(number, ints))
}

pub fn read(case: &Case) -> Answer {
    let Case::Merge { clock, scheme, lent, marks, file, body, second } = case.clone() else { unreachable!() };
    let mut bodies = [body, second];
    if slips(SecondBodyFirst) {
        bodies.swap(0, 1);
    }
    let mut readings = vec![];
    for (number, body) in bodies.into_iter().enumerate() {
        let most = Case::Sweep { clock, scheme, lent: Lent::MOST, file: file.clone(), body };
        match answer(&most.with_marks(usize::MAX)) {
            Answer::Gaps(sweep, marks) => readings.push(Reading { sweep, marks }),
            Answer::Refused(_) if number == 1 && slips(SecondRefusalPasses) => {
                let Reading { sweep, marks } = readings.remove(0);
                return Answer::Gaps(sweep, marks);
            }
            given => return given,
        }
    }
    let (second, first) = (readings.pop().unwrap(), readings.pop().unwrap());
    let short = short(&first.sweep.picture, lent, marks);
    if let (Some(short), true) = (&short, slips(ShortBeforeDifferent)) {
        return short.clone();
    }
    let different = different(&first.sweep.picture, &second.sweep.picture);
    if different && !slips(DisagreementBeforeDifferent) {
        return refused(43, &[]);
    }
    if let (Some(short), true) = (&short, slips(ShortBeforeDisagreement)) {
        return short.clone();
    }
    if let Some(radial) = disagreement(&first, &second) {
        return refused(44, &[radial as i128]);
    }
    if different {
        return refused(43, &[]);
    }
    if let Some(short) = short {
        return short;
    }
    let Reading { mut sweep, mut marks } = first;
    let bins = sweep.picture.bins;
    for radial in 0..marks.len() {
        let cells = radial * bins..(radial + 1) * bins;
        let take = marks[radial] == 1 && second.marks[radial] == 0 && !slips(FirstGapStays);
        if take || slips(SecondGapTaken) {
            sweep.picture.codes[cells.clone()].copy_from_slice(&second.sweep.picture.codes[cells.clone()]);
            if !slips(GapValuesStay) {
                sweep.physical[cells.clone()].copy_from_slice(&second.sweep.physical[cells]);
            }
            if !slips(MarkStays) {
                marks[radial] = second.marks[radial];
            }
        }
    }
    if slips(BothGapsUnmarked) {
        marks.fill(0);
    }
    Answer::Gaps(sweep, marks)
}

fn short(picture: &Picture, lent: Lent, marks: usize) -> Option<Answer> {
    let cells = picture.codes.len();
    let places =
        [(lent.azimuths, picture.radials), (lent.codes, cells), (lent.physical, cells), (marks, picture.radials)];
    places.iter().position(|(lent, need)| lent < need).map(|buffer| refused(36, &[buffer as i128]))
}

fn different(one: &Picture, other: &Picture) -> bool {
    let same32 = |a: f32, b: f32| match () {
        () if slips(FloatsAsNumbers) => a == b,
        () if slips(ZerosAlike) => a == b || same_f32(a, b),
        () => same_f32(a, b),
    };
    let same64 = |a: f64, b: f64| match () {
        () if slips(FloatsAsNumbers) => a == b,
        () if slips(ZerosAlike) => a == b || same_f64(a, b),
        () => same_f64(a, b),
    };
    let geometry = match (one.geometry, other.geometry) {
        (Geometry::RangeScale(a), Geometry::RangeScale(b)) => a == b || slips(RangeScaleIgnored),
        (Geometry::Gates { width: a, first: b }, Geometry::Gates { width: c, first: d }) => {
            same32(a, c) && (same32(b, d) || slips(FirstGateIgnored))
        }
        _ => false,
    };
    let azimuths = one.azimuths.iter().zip(&other.azimuths).enumerate();
    let centres = azimuths.filter(|(k, (a, b))| !same64(**a, **b) && !(slips(FirstCentreAlone) && *k > 0)).count() == 0;
    let packets = one.packet == other.packet || slips(PacketIgnored);
    !packets || one.radials != other.radials || one.bins != other.bins || !geometry || !centres
}

fn disagreement(first: &Reading, second: &Reading) -> Option<usize> {
    let [one, other] = [first, second].map(|reading| &reading.sweep.picture);
    let bins = one.bins.min(other.bins);
    let whole = |radial: usize| match (first.marks[radial], second.marks[radial]) {
        (0, 0) => true,
        (1, 1) => false,
        _ => slips(GapDisagrees),
    };
    let unequal = |radial: &usize| {
        let [a, b] = [one, other].map(|p| &p.codes[radial * p.bins..radial * p.bins + bins]);
        if slips(LastCodeIgnored) {
            a[..bins - 1] != b[..bins - 1]
        } else {
            a != b
        }
    };
    let mut found = (0..first.marks.len().min(second.marks.len())).filter(|radial| whole(*radial)).filter(unequal);
    if slips(HighestDisagreement) {
        found.last()
    } else {
        found.next()
    }
}
