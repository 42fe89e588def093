//! Document 02, M-111: the gap readings of two bodies merged.
use lines::{same_f32, same_f64, Geometry, Picture, Refusal, Sweep};

/// A sweep, and a mark for each radial: 1 where its row is a gap.
pub type Marked = (Box<Sweep>, Vec<u8>);

/// 43, 44, or each row the first's if whole there, else the second's if whole, else a gap.
pub fn merged(first: &Marked, second: &Marked) -> Result<Marked, Refusal> {
    let [one, other] = [first, second].map(|(sweep, _)| &sweep.picture);
    if differ(one, other) {
        return Err(Refusal::new(43, &[]));
    }
    let cells = |radial: usize| radial * one.bins..(radial + 1) * one.bins;
    let whole = |(_, marks): &Marked, radial: usize| marks[radial] == 0;
    let disagree = |radial: &usize| one.codes[cells(*radial)] != other.codes[cells(*radial)];
    let both = (0..one.radials).filter(|radial| whole(first, *radial) && whole(second, *radial));
    if let Some(radial) = both.filter(disagree).min() {
        return Err(Refusal::new(44, &[radial as i128]));
    }
    let (mut sweep, mut marks) = first.clone();
    for radial in (0..one.radials).filter(|radial| !whole(first, *radial) && whole(second, *radial)) {
        sweep.picture.codes[cells(radial)].copy_from_slice(&other.codes[cells(radial)]);
        sweep.physical[cells(radial)].copy_from_slice(&second.0.physical[cells(radial)]);
        marks[radial] = 0;
    }
    Ok((sweep, marks))
}

/// Packet, counts, azimuths, range scale or gate figures differ.
fn differ(one: &Picture, other: &Picture) -> bool {
    let geometry = match (one.geometry, other.geometry) {
        (Geometry::RangeScale(a), Geometry::RangeScale(b)) => a == b,
        (Geometry::Gates { width: a, first: b }, Geometry::Gates { width: c, first: d }) => same_f32(a, c) && same_f32(b, d),
        _ => false,
    };
    let azimuths = one.azimuths.iter().zip(&other.azimuths).all(|(a, b)| same_f64(*a, *b));
    one.packet != other.packet || one.radials != other.radials || one.bins != other.bins || !geometry || !azimuths
}
