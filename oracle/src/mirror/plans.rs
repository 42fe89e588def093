//! A field plan read once more, from document 02's sentences, with a place for each slip.
use super::{answer, slips, Slip::*};
use crate::model;
use lines::{Answer, Case, Lent, Picture, Refusal, Scheme};
use std::collections::HashMap;

/// A record's offset and number, counted from 0.
#[derive(Clone, Copy)]
struct Place {
    at: usize,
    nth: usize,
}

enum Record {
    Field(u16),
    /// Radial, first gate, gate count, weight.
    Strip([i64; 4]),
}

/// A refusal that names a record.
fn refused(number: u32, place: Place) -> Refusal {
    let named = match place {
        Place { nth, .. } if slips(RecordNumberNamed) => nth,
        Place { at, .. } if slips(ContentNamed) => at + 3,
        Place { at, .. } => at,
    };
    Refusal::new(number, &[named as i128])
}

/// The records up to one that cannot be told apart, or that is of no kind.
fn records(plan: &[u8]) -> (Vec<(Place, Record)>, Option<Place>) {
    let (little, longer, skipped) = (slips(PlanLittleEndian), slips(LongerRecordsPass), slips(UnknownTagsSkipped));
    let halfword = |bytes: &[u8]| match [bytes[0], bytes[1]] {
        pair if little => u16::from_le_bytes(pair),
        pair => u16::from_be_bytes(pair),
    };
    let lowest = [slips(RadialsFrom1) as i64, slips(GatesFrom1) as i64];
    let (mut records, mut at, mut nth) = (vec![], 0, 0);
    while at < plan.len() {
        let (place, rest) = (Place { at, nth }, &plan[at..]);
        let len = if rest.len() < 3 { usize::MAX } else { halfword(&rest[1..]) as usize };
        if rest.len().saturating_sub(3) < len {
            return (records, if slips(CutRecordEndsPlan) { None } else { Some(place) });
        }
        let content = &rest[3..3 + len];
        match rest[0] {
            1 if len == 2 || len > 2 && longer => records.push((place, Record::Field(halfword(content)))),
            2 if len == 8 || len > 8 && longer => {
                let [radial, first, count, weight] = [0, 2, 4, 6].map(|k| i64::from(halfword(&content[k..])));
                let weight = if slips(WeightSigned) { i64::from(weight as i16) } else { weight };
                records.push((place, Record::Strip([radial - lowest[0], first - lowest[1], count, weight])));
            }
            0 | 3.. if skipped => {}
            _ => return (records, Some(place)),
        }
        (at, nth) = (at + 3 + len, nth + 1);
    }
    (records, None)
}

/// The records of a plan for a grid of radials and bins, or what is refused of them.
fn checked(plan: &[u8], radials: usize, bins: usize) -> Result<Vec<(Place, Record)>, Refusal> {
    let (records, broken) = records(plan);
    if slips(EmptyPlanRefused) && plan.is_empty() {
        return Err(refused(37, Place { at: 0, nth: 0 }));
    }
    if slips(ClearPlanRefused) && radials == 0 && !plan.is_empty() {
        return Err(refused(39, Place { at: 0, nth: 0 }));
    }
    let most = if slips(OneStripFewer) { 4095 } else { 4096 };
    let end_of_row = bins as i64 - slips(LastGateOutside) as i64;
    // every fault of every record, in plan order
    let (mut named, mut last, mut strips, mut of_field) = (HashMap::new(), None, 0, 0);
    let mut faults = vec![];
    for (place, record) in &records {
        match record {
            Record::Field(number) => {
                of_field = 0;
                let next = last.replace(*number) == Some(*number);
                if let Some(first) = named.get(number).filter(|_| next || !slips(NextFieldsAloneCompared)) {
                    faults.push(refused(38, if slips(FirstNamingNamed) { *first } else { *place }));
                }
                named.entry(*number).or_insert(*place);
            }
            Record::Strip([radial, first, count, _]) => {
                (strips, of_field) = (strips + 1, of_field + 1);
                let many = if slips(StripsCountedByField) { of_field } else { strips };
                let early = named.is_empty() && !slips(StripBeforeFieldPasses);
                if early || many > most || *count == 0 && !slips(NoGatesPass) {
                    faults.push(refused(37, *place));
                }
                let end = if slips(GateSumWraps) { i64::from((first + count) as u16) } else { first + count };
                let passes = slips(ClearStripsPass) && radials == 0;
                if passes {
                    continue;
                }
                if !(0..radials as i64).contains(radial) || *first < 0 || end > end_of_row {
                    faults.push(refused(39, *place));
                }
            }
        }
    }
    faults.extend(broken.map(|place| refused(37, place)));
    let order = match () {
        _ if slips(RepeatedBeforeMalformed) => [38, 37, 39],
        _ if slips(OutsideBeforeRepeated) => [37, 39, 38],
        _ => [37, 38, 39],
    };
    let first = |number: &u32| faults.iter().find(|fault| fault.number == *number);
    let found = if slips(FirstFaultOfRecords) { faults.first() } else { order.iter().find_map(first) };
    found.map_or(Ok(()), |fault| Err(*fault))?;
    Ok(records)
}

/// A field's number, its total, how many strips it has, and the cells that they were over.
struct Field {
    number: u16,
    total: u64,
    strips: usize,
    over: Vec<bool>,
}

/// A total for each field, in plan order.
fn totals(records: &[(Place, Record)], picture: &Picture, (floor, ceiling): (u16, Option<u16>)) -> Vec<u64> {
    let low = ceiling.is_some_and(|c| c < floor);
    let ceiling = ceiling.filter(|_| !(slips(CeilingIgnored) || low && slips(LowCeilingIgnored)));
    let above = match ceiling {
        None => 65_536,
        Some(c) => u32::from(c) + !slips(CeilingExcluded) as u32,
    };
    let (whole, below) = (slips(FloorNotTakenOff), slips(BelowFloorCounted));
    let amount = |code: u16| match code {
        code if u32::from(code) >= above => 0,
        code if code < floor => u64::from(floor - code) * below as u64,
        code if whole => code.into(),
        code => (code - floor).into(),
    };
    let (once, last) = (slips(CellCountedOnce), slips(LastGateLeftOut) as usize);
    let mut fields: Vec<Field> = vec![];
    for (_, record) in records {
        match record {
            Record::Field(number) => {
                let over = if once { vec![false; picture.codes.len()] } else { vec![] };
                fields.push(Field { number: *number, total: 0, strips: 0, over });
            }
            Record::Strip([radial, first, count, weight]) => {
                let at = if slips(StripsOfFirstField) { 0 } else { fields.len().saturating_sub(1) };
                let Some(field) = fields.get_mut(at) else { continue };
                field.strips += 1;
                let from = *radial as usize * picture.bins + *first as usize;
                for (cell, code) in picture.codes.iter().enumerate().skip(from).take(*count as usize - last) {
                    if !once || !std::mem::replace(&mut field.over[cell], true) {
                        field.total = field.total.wrapping_add((*weight as u64).wrapping_mul(amount(*code)));
                    }
                }
            }
        }
    }
    if slips(TotalsByNumber) {
        fields.sort_by_key(|field| field.number);
    }
    if slips(FieldsWithoutStripsSkipped) {
        fields.retain(|field| field.strips > 0);
    }
    let most = if slips(TotalsIn32Bits) { u64::from(u32::MAX) } else { u64::MAX };
    fields.iter().map(|field| field.total & most).collect()
}

pub(super) fn read(case: &Case) -> Answer {
    let Case::Plan { scheme, totals: lent, file, plan, .. } = case else { unreachable!() };
    let ordinary = case.clone().ordinary();
    let given = answer(&ordinary);
    if !matches!(scheme, Scheme::Precip(_)) {
        let past_10 = |r: &Refusal| match r.number {
            12..=35 => slips(MismatchBeforeBody),
            9 => !slips(MismatchAfterStep) && !slips(MismatchAfterLent),
            36 => !slips(MismatchAfterLent),
            number => number == 10,
        };
        return match given {
            Answer::Refused(r) if !past_10(&r) => given,
            Answer::Sweep(sweep) if slips(FittingSchemePasses) => Answer::Totals(sweep, vec![]),
            _ => Answer::Refused(Refusal::new(10, &[])),
        };
    }
    let plan_first = slips(PlanBeforeLent) && given.refusal().is_some_and(|r| r.number == 36);
    let sweep = match if plan_first { answer(&roomy(ordinary)) } else { given.clone() } {
        Answer::Sweep(sweep) => sweep,
        other => return other,
    };
    let short = Answer::Refused(Refusal::new(36, &[4]));
    let fields = |records: &[(Place, Record)]| records.iter().filter(|r| matches!(r.1, Record::Field(_))).count();
    if slips(TotalsLentBeforePlan) && *lent < fields(&records(plan).0) {
        return short;
    }
    let made = match checked(plan, sweep.picture.radials, sweep.picture.bins) {
        Err(refusal) => return Answer::Refused(refusal),
        Ok(_) if plan_first => return given,
        Ok(records) => {
            let block = model::header_place(file).unwrap() + 18;
            totals(&records, &sweep.picture, model::valid_codes(file, block))
        }
    };
    if *lent < made.len() {
        return short;
    }
    Answer::Totals(sweep, made)
}

/// 36 of the codes if they are fewer than a picture of so many radials and bins has.
pub(super) fn codes_for(codes: &[u16], radials: usize, bins: usize) -> Result<(), Refusal> {
    let cells = match radials.checked_mul(bins) {
        Some(cells) => cells,
        None if slips(TotalsOfCellsIn64Bits) => radials.wrapping_mul(bins),
        None => usize::MAX,
    };
    let fewer = codes.len() + usize::from(slips(TotalsOfFewerCodes)) < cells;
    if fewer || slips(TotalsOfMoreCodesRefused) && codes.len() > cells {
        return Err(Refusal::new(36, &[1]));
    }
    Ok(())
}

/// The totals of a plan over a picture's codes.
pub(super) fn alone(
    codes: &[u16],
    (radials, bins): (usize, usize),
    bounds: (u16, Option<u16>),
    plan: &[u8],
    lent: usize,
) -> Result<Vec<u64>, Refusal> {
    let room = codes_for(codes, radials, bins);
    if !slips(TotalsCodesAfterPlan) {
        room?;
    }
    let records = checked(plan, radials, bins)?;
    room?;
    // The range scale is not looked at.
    let geometry = lines::Geometry::RangeScale(0);
    let picture = Picture { packet: lines::Packet::P16, radials, bins, geometry, azimuths: vec![], codes: codes.to_vec() };
    let made = totals(&records, &picture, bounds);
    if lent < made.len() {
        return Err(Refusal::new(36, &[4]));
    }
    Ok(made)
}

/// The same with enough lent.
fn roomy(mut case: Case) -> Case {
    if let Case::Sweep { lent, .. } = &mut case {
        *lent = Lent::MOST;
    }
    case
}
