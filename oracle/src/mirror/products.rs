//! The Rust's products, the refusals' names and the version, with a place for each slip.
use super::{answer, report, slips, Slip::*};
use crate::model::{self, CODES};
use crate::port::{BAD_ARGUMENT, FLOATS, INTS, NAME, SHORT_REPORT};
use lines::{Answer, Case, Product, MOMENTS, UNITS};
use std::slice::from_raw_parts_mut;

fn found(code: i16) -> Option<Product> {
    match answer(&Case::Product { code }) {
        Answer::Product(product) => product,
        _ => unreachable!(),
    }
}

fn slipped(code: i16) -> Option<Product> {
    if slips(LaterCodesKnown) && code > 177 {
        return found(177);
    }
    let mut product = found(code)?;
    if slips(RateInHundredths) && product.moment == "RATE" {
        product.scheme = found(170)?.scheme;
    }
    let before = CODES.iter().rev().find(|known| (**known as i16) < code);
    if let (true, Some(before)) = (slips(GateOfCodeBefore), before) {
        product.gate = found(*before as i16)?.gate;
    }
    Some(product)
}

pub(super) unsafe extern "C" fn product(
    code: i16,
    ints: *mut i64,
    ints_len: usize,
    floats: *mut f64,
    floats_len: usize,
) -> u32 {
    let Some(report) = report(ints, ints_len, floats, floats_len) else { return SHORT_REPORT };
    report.ints[..INTS].fill(0);
    report.floats[..FLOATS].fill(0.0);
    if let Some(Product { scheme, moment, unit, gate, elevation }) = slipped(code) {
        let place = |words: &[&str], word| words.iter().position(|w| *w == word).unwrap() as i64;
        let (moment, unit) = (place(&MOMENTS, moment), place(&UNITS, unit));
        let numbers = [1, scheme.index() as i64, moment, unit, gate.unwrap_or(0).into(), elevation.into()];
        report.ints[..6].copy_from_slice(&numbers);
        report.floats[0] = scheme.parameter().into();
    }
    0
}

pub(super) unsafe extern "C" fn refusal_name(number: u32, name: *mut u8, name_len: usize) -> u32 {
    let name = from_raw_parts_mut(name, name_len);
    let number = match number {
        45 if slips(NamesExchanged) => 46,
        46 if slips(NamesExchanged) => 45,
        same => same,
    };
    let Answer::Name(text) = answer(&Case::Name { number, places: NAME }) else { return BAD_ARGUMENT };
    let (short, written) = (name.len() < NAME, slips(NameInFewerPlaces) || slips(ShortNameRefusalWrites));
    if short && !(written && text.len() <= name.len()) {
        return BAD_ARGUMENT;
    }
    name[..text.len()].copy_from_slice(&text);
    if short {
        return if slips(ShortNameRefusalWrites) { BAD_ARGUMENT } else { 0 };
    }
    if !slips(NameWithoutZeros) {
        name[text.len()..NAME].fill(0);
    }
    0
}

pub(super) extern "C" fn version() -> u32 {
    model::VERSION
}
