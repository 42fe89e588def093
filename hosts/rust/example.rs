//! example FILE [SCHEME [PARAMETER]]: the figures of a product file whose symbology is plain. Scheme, a number of l3.h, and parameter are
//! those of the product table unless a scheme is given.
//!
//!     rustc --edition 2021 -O example.rs -L native=FOLDER -l static=yasgulet -l m

use std::process::ExitCode;
use std::time::{SystemTime, UNIX_EPOCH};

const INTS: usize = 24;
const FLOATS: usize = 8;

extern "C" {
    fn l3_message_header(file: *const u8, file_len: usize, ints: *mut i64, ints_len: usize, floats: *mut f64, floats_len: usize) -> u32;
    fn l3_product(code: i16, ints: *mut i64, ints_len: usize, floats: *mut f64, floats_len: usize) -> u32;
    fn l3_sweep(
        file: *const u8, file_len: usize, clock: u64, scheme: u32, parameter: f32, body: *const u8, body_len: usize,
        azimuths: *mut f64, azimuths_len: usize, codes: *mut u16, codes_len: usize, physical: *mut f32, physical_len: usize,
        ints: *mut i64, ints_len: usize, floats: *mut f64, floats_len: usize,
    ) -> u32;
}

/// What a call reports: whole numbers and floats.
#[derive(Default)]
struct Report {
    ints: [i64; INTS],
    floats: [f64; FLOATS],
}

/// A picture: `bins` values for each radial.
struct Sweep {
    report: Report,
    values: Vec<f32>,
}

fn message_header(file: &[u8]) -> Result<usize, (u32, Report)> {
    let mut report = Report::default();
    // The pointers are those of live slices with their lengths, and none of the written ones overlaps another.
    let refused = unsafe { l3_message_header(file.as_ptr(), file.len(), report.ints.as_mut_ptr(), INTS, report.floats.as_mut_ptr(), FLOATS) };
    if refused == 0 { Ok(report.ints[0] as usize) } else { Err((refused, report)) }
}

/// The scheme of a product code and its parameter by the product table, if the code is in it.
fn scheme_of(code: i16) -> Option<(u32, f32)> {
    let mut report = Report::default();
    // As above.
    let refused = unsafe { l3_product(code, report.ints.as_mut_ptr(), INTS, report.floats.as_mut_ptr(), FLOATS) };
    (refused == 0 && report.ints[0] != 0).then_some((report.ints[1] as u32, report.floats[0] as f32))
}

fn sweep(file: &[u8], clock: u64, scheme: u32, parameter: f32, body: &[u8]) -> Result<Sweep, (u32, Report)> {
    let mut report = Report::default();
    let (mut azimuths, mut codes, mut values) = (vec![0.0f64; 100_000], vec![0u16; 4_000_000], vec![0.0f32; 4_000_000]);
    // As above.
    let refused = unsafe {
        l3_sweep(
            file.as_ptr(), file.len(), clock, scheme, parameter, body.as_ptr(), body.len(),
            azimuths.as_mut_ptr(), azimuths.len(), codes.as_mut_ptr(), codes.len(), values.as_mut_ptr(), values.len(),
            report.ints.as_mut_ptr(), INTS, report.floats.as_mut_ptr(), FLOATS,
        )
    };
    if refused != 0 {
        return Err((refused, report));
    }
    values.truncate((report.ints[7] * report.ints[8]) as usize);
    Ok(Sweep { report, values })
}

fn main() -> ExitCode {
    let words: Vec<String> = std::env::args().collect();
    let scheme: Option<u32> = words.get(2).and_then(|w| w.parse().ok());
    let parameter: Option<f32> = words.get(3).and_then(|w| w.parse().ok());
    if !(2..=4).contains(&words.len()) || scheme.is_some() != (words.len() > 2) || parameter.is_some() != (words.len() > 3) {
        eprintln!("example FILE [SCHEME [PARAMETER]]");
        return ExitCode::from(2);
    }
    let path = &words[1];
    let file = match std::fs::read(path) {
        Ok(file) => file,
        Err(error) => {
            eprintln!("{path}: {error}");
            return ExitCode::from(2);
        }
    };
    let clock = SystemTime::now().duration_since(UNIX_EPOCH).map(|d| d.as_secs()).unwrap_or(0);
    let answer = message_header(&file).and_then(|header| {
        let body = file.get(header + 120..).unwrap_or(&[]);
        if body.starts_with(b"BZh") {
            eprintln!("{path}: packed; unpack what follows byte {}", header + 120);
            return Ok(None);
        }
        let code = i16::from_be_bytes([file[header], file[header + 1]]);
        let Some((scheme, parameter)) = scheme.map(|s| (s, parameter.unwrap_or(0.0))).or_else(|| scheme_of(code)) else {
            eprintln!("{path}: product code {code} is not in the product table: give a scheme");
            return Ok(None);
        };
        sweep(&file, clock, scheme, parameter, body).map(Some)
    });
    match answer {
        Ok(None) => ExitCode::from(2),
        Ok(Some(sweep)) => {
            let ints = &sweep.report.ints;
            let token = ints[0] as usize;
            let valued: Vec<f32> = sweep.values.iter().copied().filter(|v| !v.is_nan()).collect();
            let largest = valued.iter().copied().fold(f32::NEG_INFINITY, f32::max);
            println!(
                "{} product {}, {} by {}, {} cells with a value, the largest {}",
                String::from_utf8_lossy(&file[token..token + 6]), ints[1], ints[7], ints[8], valued.len(), largest
            );
            println!("latitude {}, longitude {}", sweep.report.floats[0], sweep.report.floats[1]);
            ExitCode::SUCCESS
        }
        Err((number, report)) => {
            println!("refused: {number}, {} {} {}", report.ints[0], report.ints[1], report.ints[2]);
            ExitCode::from(1)
        }
    }
}
