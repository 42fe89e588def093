//! The answer that the port is held to: the Rust's, with what document 02 alters put into it by the model, and the model's to what
//! the Rust has no function for.
use crate::model;
use crate::port::{BAD_ARGUMENT, NAME};
use lines::{Answer, Case, Lent, Packet, Refusal, Scheme, NAMES};

pub fn answer(case: &Case) -> Answer {
    match case {
        Case::Strict { .. } => strict(case.clone().ordinary()),
        Case::Gaps { marks, .. } => gaps(case.clone().ordinary(), *marks),
        Case::Merge { .. } => merged(case),
        Case::Plan { totals, plan, .. } => planned(case.clone().ordinary(), *totals, plan),
        Case::Sweep { body, .. } | Case::Sym { body } if model::is_clear(body) => clear(case.clone()),
        Case::Export { out, body } => export(*out, body),
        Case::Date { days } => model::date(*days).map_or_else(Answer::Refused, Answer::Date),
        Case::Charge { total, ends, rates } => model::charge(*total, ends, rates).unwrap_or_else(Answer::Refused),
        Case::Name { number, places } => name(*number, *places),
        Case::Product { .. } => with_unit(radish::answer(case)),
        _ => altered(case, radish::answer(case)),
    }
}

/// A refusal's name, which asks for 32 places.
fn name(number: u32, places: usize) -> Answer {
    match (number as usize).checked_sub(1).and_then(|at| NAMES.get(at)) {
        Some(name) if places >= NAME => Answer::Name(name.as_bytes().to_vec()),
        _ => Answer::Refused(Refusal::new(BAD_ARGUMENT, &[])),
    }
}

/// A product of the Rust's with the unit of its moment, which the Rust has not.
pub fn with_unit(mut answer: Answer) -> Answer {
    if let Answer::Product(Some(product)) = &mut answer {
        product.unit = model::unit(product.moment);
    }
    answer
}

/// M-112, from the ordinary reading: where nothing is refused before 10, what the body holds beside its rows comes first.
fn strict(case: Case) -> Answer {
    let given = answer(&case);
    let Case::Sweep { body, .. } = &case else { return given };
    if given.refusal().is_none_or(|r| matches!(r.number, 9 | 10 | 36)) {
        if let Some(refusal) = model::strict::surplus(body) {
            return Answer::Refused(refusal);
        }
    }
    given
}

/// M-101, from the ordinary reading: where it names a radial whose data make no row, every such radial's data are mended, and the
/// mended body's answer has gaps there. All other refusals are the mended body's.
fn gaps(mut case: Case, marks: usize) -> Answer {
    let (mut given, mut gaps) = (answer(&case), vec![]);
    if given.refusal().is_some_and(|r| matches!(r.number, 22 | 34)) {
        if let Case::Sweep { body, .. } = &mut case {
            (*body, gaps) = model::mended(body);
        }
        given = answer(&case);
    }
    let Answer::Sweep(mut sweep) = given else { return given };
    let radials = sweep.picture.radials;
    if marks < radials {
        return Answer::Refused(Refusal::new(36, &[3]));
    }
    let mut made = vec![0; radials];
    for radial in gaps {
        model::make_gap(&mut sweep, radial);
        made[radial] = 1;
    }
    Answer::Gaps(sweep, made)
}

/// M-111: the gap readings of both bodies in buffers that are long enough, so that each is refused as it is before 36; then 43 and 44;
/// then 36 of the first buffer that is too short.
fn merged(case: &Case) -> Answer {
    let Case::Merge { clock, scheme, lent, marks, file, body, second } = case else { unreachable!() };
    let mut readings = vec![];
    for body in [body, second] {
        let (clock, scheme, lent) = (*clock, *scheme, Lent::MOST);
        match gaps(Case::Sweep { clock, scheme, lent, file: file.clone(), body: body.clone() }, usize::MAX) {
            Answer::Gaps(sweep, marks) => readings.push((sweep, marks)),
            refused => return refused,
        }
    }
    let (sweep, made) = match model::merges::merged(&readings[0], &readings[1]) {
        Err(refusal) => return Answer::Refused(refusal),
        Ok(merged) => merged,
    };
    let (radials, cells) = (sweep.picture.radials, sweep.picture.codes.len());
    let places = [(lent.azimuths, radials), (lent.codes, cells), (lent.physical, cells), (*marks, radials)];
    match places.iter().position(|(lent, need)| lent < need) {
        Some(buffer) => Answer::Refused(Refusal::new(36, &[buffer as i128])),
        None => Answer::Gaps(sweep, made),
    }
}

/// M-107: the Rust is not asked about a clear scan. It is answered as the same body with a row would be, in buffers that are long
/// enough, but for the row.
fn clear(mut case: Case) -> Answer {
    match &mut case {
        Case::Sweep { body, lent, .. } => (*body, *lent) = (model::with_a_row(body), Lent::MOST),
        Case::Sym { body } => *body = model::with_a_row(body),
        _ => unreachable!(),
    }
    let mut given = answer(&case);
    match &mut given {
        Answer::Sweep(sweep) => {
            model::without_rows(&mut sweep.picture);
            sweep.physical.clear();
        }
        Answer::Picture(picture) => model::without_rows(picture),
        _ => {}
    }
    given
}

/// M-109, from what symbology refuses.
fn export(out: usize, body: &[u8]) -> Answer {
    let refused = answer(&Case::Sym { body: body.to_vec() }).refusal().copied();
    model::export::export(body, refused, out).map_or_else(Answer::Refused, Answer::Written)
}

/// M-104, from the ordinary reading: 10 for any scheme but precipitation where 10 stands, so before 9 and 36; and where a sweep is
/// accepted, what its plan is refused for, or the totals.
fn planned(case: Case, totals: usize, plan: &[u8]) -> Answer {
    let given = answer(&case);
    let Case::Sweep { scheme, file, .. } = case else { return given };
    let after_10 = given.refusal().is_none_or(|r| matches!(r.number, 9 | 36));
    if after_10 && !matches!(scheme, Scheme::Precip(_)) {
        return Answer::Refused(Refusal::new(10, &[]));
    }
    let Answer::Sweep(sweep) = given else { return given };
    let block = model::header_place(&file).expect("an accepted file has a header") + 18;
    match model::plans::totals(plan, &sweep.picture, model::valid_codes(&file, block)) {
        Err(refusal) => Answer::Refused(refusal),
        Ok(made) if totals < made.len() => Answer::Refused(Refusal::new(36, &[4])),
        Ok(made) => Answer::Totals(sweep, made),
    }
}

/// M-100: the centres of packets 16 and AF1F are wrapped, which the Rust's are not. M-105: the level count of the precipitation family
/// is the number of valid codes.
pub fn altered(case: &Case, mut answer: Answer) -> Answer {
    if let (Case::Sweep { scheme: Scheme::Precip(_), file, .. }, Answer::Sweep(sweep)) = (case, &mut answer) {
        let block = model::header_place(file).expect("an accepted file has a header") + 18;
        sweep.scale.as_mut().expect("a declared scale").levels = model::level_count(file, block);
    }
    let (Case::Sweep { body, .. } | Case::Sym { body }) = case else { return answer };
    let picture = match &mut answer {
        Answer::Sweep(sweep) => &mut sweep.picture,
        Answer::Picture(picture) => picture,
        _ => return answer,
    };
    if picture.packet != Packet::P28 {
        picture.azimuths = model::centres(body);
    }
    answer
}
