//! Product files: text head, message header, description block.
use super::Rng;
use crate::model::CODES;
use lines::Scheme;

pub struct File {
    pub bytes: Vec<u8>,
    /// Where the message header was put; the block stands 18 bytes on.
    pub header: usize,
}

/// The ends of the fields that are read, from the block's start.
const FIELD_ENDS: [usize; 16] = [6, 10, 12, 14, 18, 24, 28, 42, 44, 46, 48, 50, 54, 56, 58, 74];

impl File {
    pub fn block(&self) -> usize {
        self.header + 18
    }

    pub fn set(&mut self, field: usize, bytes: &[u8]) {
        let at = self.block() + 2 * (field - 1);
        self.bytes[at..at + bytes.len()].copy_from_slice(bytes);
    }

    /// Cuts the file near the end of the token, the header or a field.
    pub fn cut(&mut self, rng: &mut Rng) {
        let end = match rng.below(8) {
            0 => rng.below(self.bytes.len()),
            1 => self.header,
            2 => self.header + 20,
            _ => self.block() + rng.pick(&FIELD_ENDS),
        };
        self.bytes.truncate(rng.jitter(end));
    }
}

pub fn token(rng: &mut Rng) -> [u8; 6] {
    std::array::from_fn(|_| rng.pick(b"0123456789ABCDEFGHIJKLMNOPQRSTUVWXYZabcxyz"))
}

/// A text head with a token.
pub fn head(rng: &mut Rng) -> Vec<u8> {
    let mut head = vec![];
    match rng.below(6) {
        0..=2 => head.extend(b"SDUS53 KLOT 011200\r\r\n"),
        3 => {
            head.extend(pieces(rng, 3));
            head.extend(b"\r\r\n");
        }
        _ => {}
    }
    for _ in 0..rng.below(3) {
        head.push(rng.pick(b" \t\n\x0c\r"));
    }
    head.extend(token(rng));
    for _ in 0..rng.below(3) {
        head.push(rng.pick(b" \t\n\x0c\r"));
    }
    head.extend(b"\r\r\n");
    head
}

/// Text that may or may not have a token.
pub fn pieces(rng: &mut Rng, most: usize) -> Vec<u8> {
    const PIECES: [&[u8]; 14] = [
        b"N0BLOT", b"n0blo", b"N0BLOTX", b"\r\r\n", b"\r\r\n", b"\r", b"\n", b" ", b"\t", b"\x0c", b"\x0b", b"\0", b"-",
        b"ab",
    ];
    (0..rng.below(most + 1)).flat_map(|_| rng.pick(&PIECES).to_vec()).collect()
}

/// A file that the sweep reading takes under the scheme, most of the time.
pub fn file(rng: &mut Rng, scheme: Scheme, days: u16, seconds: i32) -> File {
    let mut bytes = head(rng);
    if rng.one_in(3) && bytes.len() < 107 {
        let filler = rng.pick(&[b' ', 0, 0x41]);
        let to = rng.between(bytes.len(), 107);
        bytes.resize(to, filler);
    }
    let header = bytes.len();
    bytes.extend(rng.pick(&CODES).to_be_bytes());
    bytes.extend(rng.bytes(16));
    let tail = if rng.one_in(4) { rng.below(8) } else { 0 };
    bytes.extend(rng.bytes(102 + tail));
    let mut file = File { bytes, header };
    file.set(1, &[0xff, 0xff]);
    if !rng.one_in(4) {
        file.set(2, &(rng.between(0, 180_000) as i32 - 90_000).to_be_bytes());
        file.set(4, &(rng.between(0, 360_000) as i32 - 180_000).to_be_bytes());
    }
    file.set(12, &days.to_be_bytes());
    file.set(13, &seconds.to_be_bytes());
    scale_fields(rng, &mut file, scheme);
    file
}

fn scale_fields(rng: &mut Rng, file: &mut File, scheme: Scheme) {
    match scheme {
        Scheme::Halfword => {
            if !rng.one_in(12) {
                file.set(23, &(rng.between(1, 400) as i16).to_be_bytes());
            }
        }
        Scheme::Float | Scheme::Precip(_) => {
            let odd = rng.one_in(16);
            let scale = if odd { rng.odd_f32() } else { rng.plain_f32() };
            // a negative scale is no refusal for precipitation
            let scale = if scheme == Scheme::Float && !rng.one_in(12) { scale.abs() } else { scale };
            let offset = if rng.one_in(16) { rng.odd_f32() } else { rng.plain_f32() };
            file.set(22, &scale.to_be_bytes());
            file.set(24, &offset.to_be_bytes());
            flags(rng, file);
        }
        Scheme::Legacy(_) => {
            for level in 0..16 {
                let flag = rng.pick(&[0, 1, 0x10, 0x11, 0x20, 0x21, 0x40, 0x41, 0x80, 0x70, 0x31, 0xff]);
                let value = if rng.one_in(8) { 0 } else { rng.byte() };
                file.set(22 + level, &[if rng.one_in(6) { rng.byte() } else { flag }, value]);
            }
        }
        Scheme::Class => {}
    }
}

/// Largest, leading and trailing of the precipitation family.
fn flags(rng: &mut Rng, file: &mut File) {
    let largest = match rng.below(5) {
        0 => rng.pick(&[0, 1, 2, 7, 8, 9, 65_535]),
        1 => rng.u16(),
        _ => rng.between(1, 260) as u16,
    };
    let count = |rng: &mut Rng| match rng.below(8) {
        0 => rng.pick(&[-1, 9, 8, i16::MIN, i16::MAX]),
        _ => rng.below(9) as i16,
    };
    let (leading, trailing) = (count(rng), count(rng));
    file.set(27, &largest.to_be_bytes());
    file.set(28, &leading.to_be_bytes());
    file.set(29, &trailing.to_be_bytes());
}
