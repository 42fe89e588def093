//! Document 02, M-104: the records of a field plan, what is refused of them, and the totals.
use super::{is_valid, u16_at};
use lines::{Picture, Refusal};
use std::collections::HashSet;

/// A field: the offset of the record that names it, its number, and its strips.
pub struct Field {
    pub at: usize,
    pub number: usize,
    pub strips: Vec<Strip>,
}

/// A strip: the offset of its record, its cells and their weight.
pub struct Strip {
    pub at: usize,
    pub radial: usize,
    pub first: usize,
    pub count: usize,
    pub weight: usize,
}

/// The most strips that a plan may have.
pub const MOST: usize = 4096;

/// The fields of a plan, or 37 with the offset of the first record that is malformed.
pub fn fields(plan: &[u8]) -> Result<Vec<Field>, Refusal> {
    let (mut fields, mut strips, mut at) = (Vec::<Field>::new(), 0, 0);
    while at < plan.len() {
        let malformed = Refusal::new(37, &[at as i128]);
        let record = &plan[at..];
        let len = if record.len() < 3 { return Err(malformed) } else { u16_at(record, 1) };
        let content = record.get(3..3 + len).ok_or(malformed)?;
        match (record[0], len) {
            (1, 2) => fields.push(Field { at, number: u16_at(content, 0), strips: vec![] }),
            (2, 8) => {
                let [radial, first, count, weight] = [0, 2, 4, 6].map(|k| u16_at(content, k));
                strips += 1;
                let field = fields.last_mut().ok_or(malformed)?;
                if count == 0 || strips > MOST {
                    return Err(malformed);
                }
                field.strips.push(Strip { at, radial, first, count, weight });
            }
            _ => return Err(malformed),
        }
        at += 3 + len;
    }
    Ok(fields)
}

/// 38 with the first record that names a number named before.
fn distinct(fields: &[Field]) -> Result<(), Refusal> {
    let mut named = HashSet::new();
    match fields.iter().find(|field| !named.insert(field.number)) {
        Some(field) => Err(Refusal::new(38, &[field.at as i128])),
        None => Ok(()),
    }
}

/// 39 with the first strip that leaves the grid.
fn inside(fields: &[Field], radials: usize, bins: usize) -> Result<(), Refusal> {
    let mut strips = fields.iter().flat_map(|field| &field.strips);
    match strips.find(|s| s.radial >= radials || s.first + s.count > bins) {
        Some(strip) => Err(Refusal::new(39, &[strip.at as i128])),
        None => Ok(()),
    }
}

/// A total for each field of a plan over an accepted picture, given the floor and the ceiling: the sum over its strips' cells of
/// weight × (code - floor), of the valid codes alone.
pub fn totals(plan: &[u8], picture: &Picture, bounds: (u16, Option<u16>)) -> Result<Vec<u64>, Refusal> {
    let fields = fields(plan)?;
    distinct(&fields)?;
    inside(&fields, picture.radials, picture.bins)?;
    let total = |field: &Field| {
        let strips = field.strips.iter().map(|strip| {
            let from = strip.radial * picture.bins + strip.first;
            let cells = picture.codes[from..from + strip.count].iter().filter(|code| is_valid(**code, bounds));
            cells.map(|code| strip.weight as u128 * u128::from(code - bounds.0)).sum::<u128>()
        });
        u64::try_from(strips.sum::<u128>()).expect("64 bits hold a total")
    };
    Ok(fields.iter().map(total).collect())
}
