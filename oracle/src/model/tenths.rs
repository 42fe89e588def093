//! Document 02, M-108: how far the values of the halfword scheme lie from the exact tenths, in whole numbers.

/// The codes that it speaks of.
pub const CODES: std::ops::RangeInclusive<u16> = 2..=255;

/// The number that 32 bits denote by IEEE 754, times 2^60. None for a NaN or an infinity, and for what is no whole number of 2^-60 or
/// has no room: no value of the halfword scheme is such.
pub fn number(bits: u32) -> Option<i128> {
    let (negative, exponent, digits) = (bits >> 31 == 1, bits >> 23 & 0xff, i128::from(bits & 0x7f_ffff));
    let (magnitude, power) = match exponent {
        0 => (digits, -149),
        0xff => return None,
        e => (digits + (1 << 23), e as i32 - 150),
    };
    let times = match power + 60 {
        up @ 0..=100 => magnitude << up,
        101.. => return None,
        _ if magnitude == 0 => 0,
        down => {
            let part = 1i128.checked_shl(down.unsigned_abs()).filter(|part| magnitude % part == 0)?;
            magnitude / part
        }
    };
    Some(if negative { -times } else { times })
}

/// Of the values of `CODES` by halfwords 22 and 23, the greatest distance from (m + (code - 2) × i) / 10, times 80 × 2^60; or what is
/// wrong: one that is not within 1 / 8, or is not above the one before.
pub fn greatest_distance(m: i16, i: i16, values: &[f32]) -> Result<i128, String> {
    let (mut greatest, mut before) = (0, None);
    for (code, value) in CODES.zip(values) {
        let tenths = i128::from(m) + i128::from(code - 2) * i128::from(i);
        let Some(number) = number(value.to_bits()) else {
            return Err(format!("m {m}, i {i}: code {code} has the value {value}"));
        };
        let distance = (80 * number - (8 * tenths << 60)).abs();
        if distance > 10 << 60 {
            return Err(format!("m {m}, i {i}: the value of code {code}, {value}, is not within 1/8 of {tenths} / 10"));
        }
        if before.is_some_and(|before| number <= before) {
            return Err(format!("m {m}, i {i}: the value of code {code}, {value}, is not above the one before"));
        }
        (greatest, before) = (distance.max(greatest), Some(number));
    }
    if values.len() != CODES.len() {
        return Err(format!("m {m}, i {i}: {} values", values.len()));
    }
    Ok(greatest)
}

/// A description block that ends with halfword 24; 22 is m, and 23 is i.
pub fn block(m: i16, i: i16) -> Vec<u8> {
    [vec![0; 42], m.to_be_bytes().to_vec(), i.to_be_bytes().to_vec(), vec![0; 2]].concat()
}
