//! The Rust's functions as answers to cases, and the sweep reading composed of them in document 01's order.
//! This file is a child of the Rust's `decode`, so it calls the functions from inside their modules.
use super::error::Level3DecodeError as E;
use super::symbology::{self, SymbologyResult};
use super::{bytes, header, legacy16, pdb, products, xdr};
use super::{class_int_physical, linear_declared_scale, precip_family_declared_scale, DeclaredLinearScale};
use lines::{Answer, Case, Each, FieldKind, Fields, Geometry, Item, Lent, Packet, Picture, Product, Refusal, Scale, Scheme, Sweep, EACH, ITEMS};
use ndarray::Array2;
use std::cell::Cell;
use std::panic::{catch_unwind, AssertUnwindSafe};

thread_local!(static RUNNING: Cell<bool> = const { Cell::new(false) });

/// Whether the Rust is at work on this thread: its panics are answers.
pub fn running() -> bool {
    RUNNING.with(Cell::get)
}

/// The Rust's error as the table's number and values.
fn refusal(e: E) -> Refusal {
    fn n<T: TryInto<i128>>(x: T) -> i128 {
        x.try_into().ok().expect("fits")
    }
    let r = Refusal::new;
    match e {
        E::NoAwipsToken => r(1, &[]),
        E::NoMessageHeader { .. } => r(2, &[]),
        E::PdbFieldOutOfBounds { index } => r(3, &[n(index)]),
        E::ImplausibleScanTime { days, seconds } => r(4, &[n(days), n(seconds)]),
        // seconds / 86,400 in f64: far below 2^53, so the seconds come back exactly
        E::ScanTimeTooFarAhead { days_ahead } => r(5, &[(days_ahead * 86_400.0).round() as i128]),
        E::NonFiniteScale(x) => Refusal::with(7, &[], x),
        E::NonFiniteOffset(x) => Refusal::with(8, &[], x),
        E::NonPositiveIncrement(x) => Refusal::with(9, &[], x),
        E::UnexpectedTrailingBytes { trailing_len } => r(11, &[n(trailing_len)]),
        E::SymbologyTruncated { len } => r(12, &[n(len)]),
        E::BadSymbologyHeader { divider, block_id } => r(13, &[n(divider), n(block_id)]),
        E::UnsupportedPacketCode { code } => r(14, &[n(code)]),
        E::EmptySweep { n_radials, n_bins } => r(15, &[n(n_radials), n(n_bins)]),
        E::GridTooLarge { n_radials, n_bins, cells, max } => r(16, &[n(n_radials), n(n_bins), n(cells), n(max)]),
        E::NonZeroFirstBin(first) => r(17, &[n(first)]),
        E::AllocationExceedsBody { n_radials, n_bins, needed, available } => {
            r(18, &[n(n_radials), n(n_bins), n(needed), n(available)])
        }
        E::TruncatedAtRadial { radial, n_radials } => r(19, &[n(radial), n(n_radials)]),
        E::ImplausibleRadialWidth { radial, width_deg } => Refusal::with(20, &[n(radial)], width_deg),
        E::RadialByteCountMismatch { radial, n_bytes, n_bins } => r(21, &[n(radial), n(n_bytes), n(n_bins)]),
        E::RleExpansionMismatch { radial, expanded, expected } => r(22, &[n(radial), n(expanded), n(expected)]),
        E::XdrTruncated { context, have, need } => r(23, &[item(context), n(have), n(need)]),
        E::XdrStringTooLong { len, max } => r(24, &[n(len), n(max)]),
        E::XdrArrayTooLong { len, max } => r(25, &[n(len), n(max)]),
        E::XdrListTooLong { len, max } => r(26, &[n(len), n(max)]),
        E::UnsupportedXdrComponent(kind) => r(27, &[n(kind)]),
        E::UnexpectedXdrComponentCount(count) => r(28, &[n(count)]),
        E::NonPositiveXdrGeometry { n_radials, n_bins } => r(29, &[n(n_radials), n(n_bins)]),
        E::ImplausibleXdrRadialCount { n_radials, max } => r(30, &[n(n_radials), n(max)]),
        E::XdrRadialBinCountMismatch { radial, n_bins, expected } => r(31, &[n(radial), n(n_bins), n(expected)]),
        E::XdrRadialDataLengthMismatch { radial, declared, num_bins } => {
            r(32, &[n(radial), n(declared), n(num_bins)])
        }
        E::XdrGridTooLarge { n_radials, n_bins, cells, max } => r(33, &[n(n_radials), n(n_bins), n(cells), n(max)]),
        E::XdrRawLevelOutOfRange { radial, gate, value } => r(34, &[n(radial), n(gate), n(value)]),
        E::XdrTrailingBytes { remaining } => r(35, &[n(remaining)]),
        other => panic!("a refusal of decode() alone: {other:?}"),
    }
}

fn item(context: &str) -> i128 {
    let word = match context {
        "string body" => "string_body",
        "string padding" => "padding",
        "int array body" => "array_body",
        "generic data packet body" => "packet_body",
        same => same,
    };
    ITEMS.iter().position(|w| *w == word).expect("an item's name") as i128
}

/// `scan_time` under a clock: 4, then 6, then 5.
fn scan_time(days: u16, seconds: i32, clock: i128) -> Result<i64, Refusal> {
    let usable = (0..=1 << 40).contains(&clock);
    // a clock out of range must not hide 4, and no scan is ahead of the latest clock
    chrono::set_clock(if usable { clock as i64 } else { 1 << 40 });
    let time = header::scan_time(days, seconds).map_err(refusal)?;
    if usable { Ok(time.timestamp()) } else { Err(Refusal::new(6, &[])) }
}

/// What `decode_symbology` gives, in the Rust's own width.
pub struct Codes(SymbologyResult);

/// The sweep reading's acceptance, in the Rust's own arrays.
pub struct Reading {
    token: (String, String),
    fields: pdb::PdbFields,
    time: i64,
    scale: Option<DeclaredLinearScale>,
    packet: Packet,
    codes: SymbologyResult,
    physical: Array2<f32>,
}

enum ScaleFields {
    Linear(f32, f32, u16),
    Precip(f32, f32, u8, Option<u32>),
    Legacy([f32; 16]),
    Class,
}

fn scale_fields(file: &[u8], block: usize, scheme: Scheme) -> Result<ScaleFields, E> {
    Ok(match scheme {
        Scheme::Halfword => {
            let (minimum, step, levels) = pdb::value_scaling_linear_hw(file, block)?;
            ScaleFields::Linear(minimum, step, levels)
        }
        Scheme::Float => {
            let (minimum, step, levels) = pdb::value_scaling_float(file, block)?;
            ScaleFields::Linear(minimum, step, levels)
        }
        Scheme::Precip(factor) => {
            let (minimum, step, floor, ceiling) = pdb::precip_family_scale(file, block, factor)?;
            ScaleFields::Precip(minimum, step, floor, ceiling)
        }
        Scheme::Legacy(post_scale) => {
            let thresholds = pdb::threshold_data(file, block)?;
            ScaleFields::Legacy(legacy16::decode_legacy16(&thresholds, post_scale))
        }
        Scheme::Class => ScaleFields::Class,
    })
}

type Scaled = (Option<DeclaredLinearScale>, Array2<f32>);

/// 10, then 9, then the physical values.
fn scaled(fields: &ScaleFields, packet: Packet, codes: &SymbologyResult) -> Result<Scaled, Refusal> {
    use ScaleFields::*;
    use SymbologyResult::{U16, U8};
    Ok(match (fields, codes) {
        (Linear(minimum, step, levels), U8 { codes, .. }) => {
            linear_declared_scale(codes, *minimum, *step, *levels).map_err(refusal)?
        }
        (Precip(minimum, step, floor, ceiling), U8 { codes, .. }) => {
            precip_family_declared_scale(codes, *minimum, *step, *floor, *ceiling)
        }
        (Precip(minimum, step, floor, ceiling), U16 { codes, .. }) => {
            precip_family_declared_scale(codes, *minimum, *step, *floor, *ceiling)
        }
        (Class, U8 { codes, .. }) => (None, class_int_physical(codes)),
        (Class, U16 { codes, .. }) => (None, class_int_physical(codes)),
        // the expression of decode() for the legacy scheme
        (Legacy(levels), U8 { codes, .. }) if packet == Packet::Af1f => {
            (None, codes.mapv(|code| levels[(code & 0x0F) as usize]))
        }
        _ => return Err(Refusal::new(10, &[])),
    })
}

fn packet(body: &[u8]) -> Packet {
    match bytes::read_i16_be(body, 16) {
        Some(16) => Packet::P16,
        Some(28) => Packet::P28,
        _ => Packet::Af1f,
    }
}

fn dimensions(codes: &SymbologyResult) -> (usize, usize) {
    match codes {
        SymbologyResult::U8 { codes, .. } => codes.dim(),
        SymbologyResult::U16 { codes, .. } => codes.dim(),
    }
}

fn check_lent(lent: Lent, (radials, bins): (usize, usize)) -> Result<(), Refusal> {
    let lengths = [(lent.azimuths, radials), (lent.codes, radials * bins), (lent.physical, radials * bins)];
    match lengths.iter().position(|(have, need)| have < need) {
        None => Ok(()),
        Some(buffer) => Err(Refusal::new(36, &[buffer as i128])),
    }
}

pub fn read_symbology(body: &[u8]) -> Result<Codes, Refusal> {
    symbology::decode_symbology(body).map(Codes).map_err(refusal)
}

/// The sweep reading: token, header, fields, scan time, scale fields, symbology, 10, 9, 36.
pub fn read_sweep(file: &[u8], clock: i128, scheme: Scheme, body: &[u8], lent: Lent) -> Result<Reading, Refusal> {
    let token = header::find_awips_token(file).map_err(refusal)?;
    let block = header::find_message_header(file).map_err(refusal)? + 18;
    let fields = pdb::read_pdb_fields(file, block).map_err(refusal)?;
    let time = scan_time(fields.scan_days, fields.scan_seconds, clock)?;
    let scale = scale_fields(file, block, scheme).map_err(refusal)?;
    let Codes(codes) = read_symbology(body)?;
    let packet = packet(body);
    let (scale, physical) = scaled(&scale, packet, &codes)?;
    check_lent(lent, dimensions(&codes))?;
    Ok(Reading { token, fields, time, scale, packet, codes, physical })
}

fn picture(packet: Packet, codes: SymbologyResult) -> Picture {
    let (radials, bins) = dimensions(&codes);
    let (azimuths, codes, geometry) = match codes {
        SymbologyResult::U8 { azimuths, codes, range_scale_raw } => {
            let wide = codes.as_slice().iter().map(|c| *c as u16).collect();
            (azimuths, wide, Geometry::RangeScale(range_scale_raw))
        }
        SymbologyResult::U16 { azimuths, codes, gate_width_m, first_gate_m } => {
            let gates = Geometry::Gates { width: gate_width_m, first: first_gate_m };
            (azimuths, codes.as_slice().to_vec(), gates)
        }
    };
    Picture { packet, radials, bins, geometry, azimuths, codes }
}

fn fields(p: pdb::PdbFields) -> Fields {
    Fields {
        latitude: p.lat,
        longitude: p.lon,
        height: p.height_m,
        product_code: p.product_code,
        vcp: p.vcp,
        days: p.scan_days,
        seconds: p.scan_seconds,
        elevation: p.elevation_deg,
    }
}

fn token((product, site): (String, String)) -> [u8; 6] {
    [product, site].concat().into_bytes().try_into().expect("six characters")
}

fn sweep(r: Reading) -> Sweep {
    Sweep {
        token: token(r.token),
        fields: fields(r.fields),
        time: r.time,
        scale: r.scale.map(|s| Scale {
            minimum: s.value_min,
            step: s.value_increment,
            levels: s.n_levels.into(),
            floor: s.data_floor_code,
        }),
        picture: picture(r.packet, r.codes),
        physical: r.physical.as_slice().to_vec(),
    }
}

fn xdr_item(cursor: &mut xdr::XdrCursor, op: char) -> Result<Item, E> {
    Ok(match op {
        'i' => Item::Int(cursor.unpack_int()?),
        'u' => Item::Uint(cursor.unpack_uint()?),
        'f' => Item::Float(cursor.unpack_float()?),
        's' => Item::Text(Some(cursor.unpack_string()?).filter(|s| s.is_ascii()).map(String::into_bytes)),
        'a' => Item::Array(cursor.unpack_int_array()?),
        'l' => {
            let strings = cursor.unpack_counted_list(|c, _| {
                c.unpack_string()?;
                c.unpack_string()
            })?;
            Item::List(strings.len())
        }
        other => panic!("no XDR item is called {other}"),
    })
}

fn xdr_items(ops: &str, payload: &[u8]) -> Answer {
    let mut cursor = xdr::XdrCursor::new(payload);
    let (mut items, mut refused) = (vec![], None);
    for op in ops.chars() {
        match xdr_item(&mut cursor, op) {
            Ok(item) => items.push(item),
            Err(e) => {
                refused = Some(refusal(e));
                break;
            }
        }
    }
    Answer::Xdr { items, refusal: refused, position: payload.len() - cursor.bytes_remaining() }
}

/// The head of a list: the Rust has it inside its list alone, so the first element is refused here, and the count looked up.
fn list_head(cursor: &mut xdr::XdrCursor, payload: &[u8]) -> Result<Item, E> {
    let at = payload.len() - cursor.bytes_remaining();
    match cursor.unpack_counted_list(|_, _| Err::<(), E>(E::UnsupportedXdrComponent(0))) {
        Ok(list) => Ok(Item::List(list.len())),
        Err(E::UnsupportedXdrComponent(_)) => {
            let count: [u8; 4] = payload[at..at + 4].try_into().expect("four bytes");
            Ok(Item::List(i32::from_be_bytes(count) as usize))
        }
        Err(e) => Err(e),
    }
}

/// The items of `EACH` with one cursor, after a refusal too.
fn each(payload: &[u8]) -> Answer {
    let mut cursor = xdr::XdrCursor::new(payload);
    let mut reads = vec![];
    for op in EACH.chars() {
        let item = if op == 'h' { list_head(&mut cursor, payload) } else { xdr_item(&mut cursor, op) };
        reads.push(Each { item: item.map_err(refusal), position: payload.len() - cursor.bytes_remaining() });
    }
    Answer::Each { reads, left: cursor.bytes_remaining() }
}

fn read(buf: &[u8], offset: usize, kind: FieldKind) -> Answer {
    let number = match kind {
        FieldKind::U16 => bytes::read_u16_be(buf, offset).map(i128::from),
        FieldKind::I16 => bytes::read_i16_be(buf, offset).map(i128::from),
        FieldKind::I32 => bytes::read_i32_be(buf, offset).map(i128::from),
        FieldKind::Pair => panic!("no pair is read"),
    };
    number.map_or(Answer::Nothing, Answer::Number)
}

fn field(file: &[u8], block: usize, index: usize, kind: FieldKind) -> Result<Answer, E> {
    Ok(match kind {
        FieldKind::I16 => Answer::Number(pdb::hw_i16(file, block, index)?.into()),
        FieldKind::U16 => Answer::Number(pdb::hw_u16(file, block, index)?.into()),
        FieldKind::I32 => Answer::Number(pdb::hw_i32(file, block, index)?.into()),
        FieldKind::Pair => {
            let (a, b) = pdb::hw_f32_pair(file, block, index)?;
            Answer::Pair(a, b)
        }
    })
}

fn scaling((minimum, step, levels): (f32, f32, u16)) -> Answer {
    Answer::Scaling { minimum, step, levels }
}

/// What the Rust's table has of a code. It has no units.
fn product(spec: &products::ProductSpec) -> Product {
    use products::DecodeScheme::*;
    let scheme = match spec.decode {
        LinearHw => Scheme::Halfword,
        FloatScale => Scheme::Float,
        Precip => Scheme::Precip(super::PRECIP_FACTOR),
        Rate => Scheme::Precip(super::RATE_FACTOR),
        Legacy16 => Scheme::Legacy(spec.post_scale),
        ClassInt => Scheme::Class,
    };
    let gate = spec.bin_size.map(|metres| {
        assert_eq!(metres, metres as u16 as f32, "whole metres");
        metres as u16
    });
    Product { scheme, moment: spec.moment, unit: "", gate, elevation: spec.has_elevation }
}

fn accepted(case: &Case) -> Result<Answer, Refusal> {
    Ok(match case {
        Case::Sweep { clock, scheme, lent, file, body } => {
            Answer::Sweep(Box::new(sweep(read_sweep(file, *clock, *scheme, body, *lent)?)))
        }
        Case::Strict { .. }
        | Case::Gaps { .. }
        | Case::Merge { .. }
        | Case::Plan { .. }
        | Case::Export { .. }
        | Case::Date { .. }
        | Case::Name { .. }
        | Case::Charge { .. } => Answer::Absent,
        Case::Sym { body } => Answer::Picture(Box::new(picture(packet(body), read_symbology(body)?.0))),
        Case::Token { file } => Answer::Token(token(header::find_awips_token(file).map_err(refusal)?)),
        Case::Mhb { file } => Answer::Number(header::find_message_header(file).map_err(refusal)? as i128),
        Case::Time { clock, days, seconds } => Answer::Number(scan_time(*days, *seconds, *clock)?.into()),
        Case::Field { file, block, index, kind } => field(file, *block, *index, *kind).map_err(refusal)?,
        Case::Pdb { file, block } => Answer::Fields(fields(pdb::read_pdb_fields(file, *block).map_err(refusal)?)),
        Case::Lin { file, block } => scaling(pdb::value_scaling_linear_hw(file, *block).map_err(refusal)?),
        Case::Flt { file, block } => scaling(pdb::value_scaling_float(file, *block).map_err(refusal)?),
        Case::Prc { file, block, factor } => {
            let (minimum, step, floor, ceiling) =
                pdb::precip_family_scale(file, *block, *factor).map_err(refusal)?;
            Answer::Precip { minimum, step, floor, ceiling }
        }
        Case::Thr { file, block } => Answer::Thresholds(pdb::threshold_data(file, *block).map_err(refusal)?),
        Case::Leg { thresholds, post_scale } => Answer::Levels(legacy16::decode_legacy16(thresholds, *post_scale)),
        Case::Trail { bytes } => {
            symbology::check_trailing(bytes).map_err(refusal)?;
            Answer::Accepted
        }
        Case::Known { code } => Answer::Number(products::is_known_message_code(*code) as i128),
        Case::Product { code } => Answer::Product(products::spec_for(*code).map(product)),
        Case::Codes => Answer::Codes(products::known_message_codes()),
        Case::Xdr { ops, payload } => xdr_items(ops, payload),
        Case::Each { payload } => each(payload),
        Case::Read { bytes, offset, kind } => read(bytes, *offset, *kind),
    })
}

/// The Rust's answer. A panic is an answer too: the Rust overflowed, which happens outside its domain only.
pub fn answer(case: &Case) -> Answer {
    RUNNING.with(|r| r.set(true));
    let result = catch_unwind(AssertUnwindSafe(|| accepted(case)));
    RUNNING.with(|r| r.set(false));
    match result {
        Ok(Ok(answer)) => answer,
        Ok(Err(refusal)) => Answer::Refused(refusal),
        Err(_) => Answer::Panic,
    }
}
