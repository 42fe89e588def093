//! A body of no radials, with a place for each slip.
use super::{slips, Slip::*};
use crate::wanted;
use lines::{Answer, Case, Geometry, Lent, Picture, Refusal, Scheme};

pub(super) fn read(case: &Case) -> Answer {
    let mut case = case.clone();
    let (lent, legacy, body) = match &mut case {
        Case::Sweep { lent, scheme, body, .. } => (Some(*lent), matches!(scheme, Scheme::Legacy(_)), body),
        Case::Sym { body } => (None, false, body),
        _ => unreachable!(),
    };
    let halfword = |body: &[u8], at: usize| u16::from_be_bytes([body[at], body[at + 1]]);
    let [code, first, bins] = [16, 18, 20].map(|at| halfword(body, at));
    let fifteen = Answer::Refused(Refusal::new(15, &[0, bins.into()]));
    let good_start = body[..4] == [0xff, 0xff, 0, 1];
    let long = body.len() > 30;
    if slips(ClearFirstBinPasses) {
        body[18..20].fill(0);
    }
    if slips(NoBinsPass) && bins == 0 {
        body[21] = 1;
    }
    if slips(ClearMismatchPasses) && legacy && code == 16 {
        case = of_class(case);
    }
    let mut given = wanted::answer(&case);
    if slips(ClearStepPasses) && given.refusal().is_some_and(|r| r.number == 9) {
        given = wanted::answer(&of_class(case));
    }
    let accepted = given.refusal().is_none();
    if good_start && accepted && (slips(ClearScanRefused) || slips(LongClearScanRefused) && long) {
        return fifteen;
    }
    if slips(ClearAf1fFirstBinRefused) && accepted && code != 16 && first != 0 {
        return Answer::Refused(Refusal::new(17, &[first.into()]));
    }
    if slips(ClearNeedsRoom) && accepted && matches!(lent, Some(Lent { azimuths: 0, .. })) {
        return Answer::Refused(Refusal::new(36, &[0]));
    }
    match &mut given {
        Answer::Sweep(sweep) => slip(&mut sweep.picture, bins),
        Answer::Picture(picture) => slip(picture, bins),
        _ => {}
    }
    given
}

/// The same reading with a scheme that has no scale fields, and works on every packet.
fn of_class(mut case: Case) -> Case {
    if let Case::Sweep { scheme, .. } = &mut case {
        *scheme = Scheme::Class;
    }
    case
}

fn slip(picture: &mut Picture, bins: u16) {
    picture.bins = bins.into();
    if slips(ClearRangeScaleLost) {
        picture.geometry = Geometry::RangeScale(0);
    }
}
