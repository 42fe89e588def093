//! Document 02, M-109: the body of packet 16 that is made of one of packet AF1F, and what is refused.
use super::{layout, row, u16_at};
use lines::{Packet, Refusal};

/// An odd number of bins to which the count has no room for one more.
pub const TOO_LONG: usize = 65_535;

/// How many bytes an export has.
pub fn length(radials: usize, bins: usize) -> usize {
    30 + radials * (6 + bins + bins % 2)
}

/// What an export gives for a body, where symbology refuses it with `refused` or accepts it, in a buffer of `out` places.
pub fn export(body: &[u8], refused: Option<Refusal>, out: usize) -> Result<Vec<u8>, Refusal> {
    let refused_with = |numbers: &[u32]| refused.filter(|r| numbers.contains(&r.number)).map_or(Ok(()), Err);
    // under 18 bytes 12, and 13
    if body.len() < 18 {
        refused_with(&[12])?;
    }
    refused_with(&[13])?;
    let code = u16_at(body, 16) as u16 as i16;
    if code != -20_705 {
        return Err(Refusal::new(14, &[code.into()]));
    }
    // under 30 bytes 12, and 15, 16
    refused_with(&[12, 15, 16])?;
    let [first_bin, bins] = [18, 20].map(|at| u16_at(body, at));
    if first_bin != 0 {
        return Err(Refusal::new(17, &[first_bin as i128]));
    }
    if bins == TOO_LONG {
        return Err(Refusal::new(42, &[]));
    }
    // of a radial
    refused.map_or(Ok(()), Err)?;
    let written = written(body);
    if out < written.len() {
        return Err(Refusal::new(36, &[5]));
    }
    Ok(written)
}

/// The body of packet 16, of an AF1F body that passes.
fn written(body: &[u8]) -> Vec<u8> {
    let layout = layout(body);
    let count = layout.bins + layout.bins % 2;
    let mut radials = vec![];
    for (radial, data) in layout.data.into_iter().enumerate() {
        let codes = row(Packet::Af1f, layout.bins, radial, &body[data.clone()]).expect("a row");
        radials.extend((count as u16).to_be_bytes());
        // start and width
        radials.extend(&body[data.start - 4..data.start]);
        radials.extend(codes.iter().map(|code| *code as u8));
        radials.extend(vec![0; count - layout.bins]);
    }
    let length = 30 + radials.len() as u32;
    let (divider, block, layers, packet, first_bin) = (-1i16, 1i16, 1i16, 16i16, 0i16);
    [
        &divider.to_be_bytes()[..],
        &block.to_be_bytes(),
        &length.to_be_bytes(),
        &layers.to_be_bytes(),
        &divider.to_be_bytes(),
        &(length - 16).to_be_bytes(),
        &packet.to_be_bytes(),
        &first_bin.to_be_bytes(),
        // bins, bytes 22-25, range scale, radials
        &body[20..30],
        &radials,
    ]
    .concat()
}
