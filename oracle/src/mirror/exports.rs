//! An export worked out once more, from document 02's sentences and the Rust's picture, with a place for each slip.
use super::{slips, Slip::*};
use crate::wanted;
use lines::{Answer, Case, Picture, Refusal};

fn halfword(body: &[u8], at: usize) -> u16 {
    u16::from_be_bytes([body[at], body[at + 1]])
}

/// The bytes of the export, or what is refused, for a buffer of `out` places.
pub(super) fn read(body: &[u8], out: usize) -> Result<Vec<u8>, Refusal> {
    let symbology = wanted::answer(&Case::Sym { body: body.to_vec() });
    let refused = symbology.refusal().copied();
    let after = |number: u32| refused.filter(|r| r.number < number).map_or(Ok(()), Err);
    if body.len() < 18 || body[..4] != [0xff, 0xff, 0, 1] {
        return Err(refused.unwrap());
    }
    let code = halfword(body, 16);
    if code != 0xaf1f {
        match refused {
            Some(r) if slips(ExportCodeLate) => return Err(r),
            None if slips(ExportCode16Passes) && code == 16 && out >= body.len() => return Ok(body.to_vec()),
            _ => return Err(Refusal::new(14, &[(code as i16).into()])),
        }
    }
    after(15)?;
    let [first, bins] = [18, 20].map(|at| halfword(body, at));
    let clear = halfword(body, 28) == 0;
    let seventeen = if first == 0 { Ok(()) } else { Err(Refusal::new(17, &[first.into()])) };
    let passes = slips(ExportLongRowPasses) || slips(ExportClearLongRowPasses) && clear;
    let long = if bins == 65_535 && !passes { Err(Refusal::new(42, &[])) } else { Ok(()) };
    if slips(ExportFirstBinBeforeGrid) {
        seventeen?;
    }
    after(17)?;
    if slips(ExportLongRowBeforeFirstBin) {
        long?;
    }
    if !slips(ExportFirstBinPasses) {
        seventeen?;
    }
    if slips(ExportLongRowAfterRadials) {
        after(36)?;
    }
    long?;
    if slips(ExportClearRefused) && clear {
        return Err(Refusal::new(15, &[0, bins.into()]));
    }
    let short = Refusal::new(36, &[5]);
    if slips(ExportRoomBeforeRadials)
        && out < 30 + usize::from(halfword(body, 28)) * (6 + usize::from(bins) + usize::from(bins % 2))
    {
        return Err(short);
    }
    after(36)?;
    let Answer::Picture(picture) = symbology else { unreachable!() };
    let written = written(body, &picture);
    if out < written.len() {
        return Err(short);
    }
    Ok(written)
}

fn written(body: &[u8], picture: &Picture) -> Vec<u8> {
    let odd = picture.bins % 2 == 1;
    let mut bytes = body[..30].to_vec();
    bytes[16..20].copy_from_slice(&[0, 16, 0, 0]);
    let mut from = 30;
    for radial in 0..picture.radials {
        let [runs, mut start, width] = [0, 2, 4].map(|at| halfword(body, from + at));
        from += 6 + 2 * usize::from(runs);
        if slips(ExportStartReduced) {
            start %= 3600;
        }
        let row = &picture.codes[radial * picture.bins..(radial + 1) * picture.bins];
        let mut data: Vec<u8> = row.iter().map(|code| *code as u8).collect();
        match data.last() {
            Some(last) if odd && slips(ExportLastCellTwice) => data.push(*last),
            _ if odd && slips(ExportOddRowBare) => {}
            _ if odd || slips(ExportEvenRowLonger) => data.push(0),
            _ => {}
        }
        let count = if slips(ExportCountOfBins) { picture.bins } else { data.len() };
        bytes.extend([count as u16, start, width].map(u16::to_be_bytes).concat());
        bytes.extend(data);
    }
    let length = bytes.len() as u32;
    let less = if slips(ExportLengthLess18) { 18 } else { 16 };
    if !slips(ExportHeaderKept) {
        bytes[4..8].copy_from_slice(&length.to_be_bytes());
        bytes[8..12].copy_from_slice(&[0, if slips(ExportNoLayer) { 0 } else { 1 }, 0xff, 0xff]);
        bytes[12..16].copy_from_slice(&(length - less).to_be_bytes());
    }
    if slips(ExportBytes22Lost) {
        bytes[22..26].fill(0);
    }
    if slips(ExportRangeScaleLost) {
        bytes[26..28].fill(0);
    }
    bytes
}
