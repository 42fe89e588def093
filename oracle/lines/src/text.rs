//! Bytes and floats as text. Every NaN is written alike, because two NaNs are equal.
use std::fmt::Write;

pub fn hex(bytes: &[u8]) -> String {
    if bytes.is_empty() {
        return "-".into();
    }
    let mut s = String::with_capacity(2 * bytes.len());
    for b in bytes {
        write!(s, "{b:02x}").unwrap();
    }
    s
}

pub fn unhex(s: &str) -> Result<Vec<u8>, String> {
    if s == "-" {
        return Ok(vec![]);
    }
    let digit = |c: u8| (c as char).to_digit(16).ok_or_else(|| format!("not hexadecimal: {}", c as char));
    if !s.len().is_multiple_of(2) {
        return Err("an odd number of hexadecimal digits".into());
    }
    s.as_bytes().chunks(2).map(|p| Ok((digit(p[0])? << 4 | digit(p[1])?) as u8)).collect()
}

/// Numbers with commas.
pub fn list<T: ToString>(numbers: &[T]) -> String {
    if numbers.is_empty() {
        return "-".into();
    }
    numbers.iter().map(T::to_string).collect::<Vec<_>>().join(",")
}

pub fn bits32(x: f32) -> u32 {
    if x.is_nan() {
        0x7fc0_0000
    } else {
        x.to_bits()
    }
}

pub fn bits64(x: f64) -> u64 {
    if x.is_nan() {
        0x7ff8_0000_0000_0000
    } else {
        x.to_bits()
    }
}

/// Over this many cells an array is written as the CRC-32 of its bytes.
const LONG: usize = 4096;

pub fn array<const N: usize>(bytes: impl Iterator<Item = [u8; N]>, cells: usize) -> String {
    let bytes: Vec<u8> = bytes.flatten().collect();
    if cells > LONG {
        format!("crc:{:08x}", crc32(&bytes))
    } else {
        hex(&bytes)
    }
}

fn crc32(bytes: &[u8]) -> u32 {
    let table: Vec<u32> =
        (0..256u32).map(|i| (0..8).fold(i, |c, _| if c & 1 != 0 { 0xEDB8_8320 ^ (c >> 1) } else { c >> 1 })).collect();
    !bytes.iter().fold(!0u32, |c, &b| table[((c ^ b as u32) & 0xff) as usize] ^ (c >> 8))
}
