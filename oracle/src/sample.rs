//! A list of a few hundred small cases, for a stored list: the edges by hand, and samples of every refusal and of every packet
//! under every scheme.
use crate::compare::Counts;
use crate::make::plans::{self, Record, Record::*};
use crate::make::{cases, Rng};
use crate::model;
use crate::wanted;
use lines::{Case, FieldKind, Lent, Packet, Scheme};
use std::collections::HashMap;

const CLOCK: i128 = 1_800_000_000;
const ONE: f32 = 1.0;
const PRECIP: Scheme = Scheme::Precip(0.254);

/// A file of a small product: `N0BLOT`, the header, and the block up to `len` bytes.
fn file(len: usize, changes: &[(usize, &[u8])]) -> Vec<u8> {
    let mut block = [0; 102];
    let mut set = |field: usize, bytes: &[u8]| block[2 * (field - 1)..][..bytes.len()].copy_from_slice(bytes);
    set(1, &[0xff, 0xff]);
    set(2, &41_881i32.to_be_bytes());
    set(4, &(-88_084i32).to_be_bytes());
    set(6, &650i16.to_be_bytes());
    set(7, &153i16.to_be_bytes());
    set(9, &215u16.to_be_bytes());
    set(12, &20_000u16.to_be_bytes());
    set(13, &3600i32.to_be_bytes());
    set(21, &5i16.to_be_bytes());
    for (field, bytes) in changes {
        set(*field, bytes);
    }
    let mut bytes = b"N0BLOT\r\r\n\0\x99".to_vec();
    bytes.extend([0; 16]);
    bytes.extend(&block[..len]);
    bytes
}

/// Minimum and step in tenths, and the level count.
fn halfword(minimum: i16, step: i16, levels: u16) -> Vec<u8> {
    let scale = [minimum.to_be_bytes(), step.to_be_bytes(), levels.to_be_bytes()].concat();
    file(48, &[(22, &scale)])
}

/// Scale and offset.
fn float(scale: f32, offset: f32) -> Vec<u8> {
    file(50, &[(22, &scale.to_be_bytes()), (24, &offset.to_be_bytes())])
}

/// Scale and offset, largest, leading, trailing.
fn precip(scale: f32, offset: f32, flags: [u16; 3]) -> Vec<u8> {
    let flags = flags.map(u16::to_be_bytes).concat();
    file(58, &[(22, &scale.to_be_bytes()), (24, &offset.to_be_bytes()), (27, &flags)])
}

/// Levels of every flag, and two of value 0.
fn legacy() -> Vec<u8> {
    let pairs = [
        [0x00, 0],
        [0x01, 0],
        [0x10, 25],
        [0x11, 25],
        [0x20, 25],
        [0x21, 40],
        [0x40, 25],
        [0x41, 25],
        [0x80, 7],
        [0x81, 7],
        [0x30, 9],
        [0x50, 9],
        [0x60, 9],
        [0x70, 9],
        [0x02, 200],
        [0xff, 255],
    ];
    file(74, &[(22, &pairs.concat())])
}

fn class() -> Vec<u8> {
    file(42, &[])
}

fn header(code: u16, first_bin: u16, bins: u16, radials: u16) -> Vec<u8> {
    let mut b = [0xffff, 1, 0, 0, 0, 0, 0, 0, code, first_bin, bins, 999, 998, 997, radials].map(u16::to_be_bytes).concat();
    b.truncate(30);
    b
}

/// A radial: count, start, width, data.
type Radial<'a> = (u16, u16, u16, &'a [u8]);

fn radials(code: u16, bins: u16, rows: &[Radial]) -> Vec<u8> {
    let mut b = header(code, 0, bins, rows.len() as u16);
    for (count, start, width, data) in rows {
        b.extend([*count, *start, *width].map(u16::to_be_bytes).concat());
        b.extend(*data);
    }
    b
}

fn p16(bins: u16, rows: &[Radial]) -> Vec<u8> {
    radials(16, bins, rows)
}

fn af1f(bins: u16, rows: &[Radial]) -> Vec<u8> {
    radials(0xaf1f, bins, rows)
}

/// A packet 28 body around a payload, whose length is stated apart.
fn generic(len: i32, payload: &[u8]) -> Vec<u8> {
    let mut b = [0xffff, 1, 0, 0, 0, 0, 0, 0, 28, 0].map(u16::to_be_bytes).concat();
    b.extend(len.to_be_bytes());
    b.extend(payload);
    b
}

fn wrapped(payload: &[u8]) -> Vec<u8> {
    generic(payload.len() as i32, payload)
}

fn words(list: &[u32]) -> Vec<u8> {
    list.iter().flat_map(|w| w.to_be_bytes()).collect()
}

/// The product block without strings, parameters and components.
fn product() -> Vec<u8> {
    words(&[0; 18])
}

fn components(count: i32, of: &[Vec<u8>]) -> Vec<u8> {
    let mut payload = product();
    payload.extend(words(&[0, 77, count as u32, 78]));
    payload.extend(of.join(&words(&[79])[..]));
    payload
}

/// A radial of packet 28: azimuth, width, bins, levels.
struct Ray<'a>(f32, f32, i32, &'a [i32]);

fn component(kind: u32, radials: i32, rays: &[Ray]) -> Vec<u8> {
    let mut b = words(&[kind, 0, 250f32.to_bits(), 125f32.to_bits(), 0, 80, radials as u32]);
    for Ray(azimuth, width, bins, levels) in rays {
        b.extend(words(&[azimuth.to_bits(), 0x3f00_0000, width.to_bits(), *bins as u32, 0, levels.len() as u32]));
        b.extend(levels.iter().flat_map(|n| n.to_be_bytes()));
    }
    b
}

fn p28(rays: &[Ray]) -> Vec<u8> {
    wrapped(&components(1, &[component(1, rays.len() as i32, rays)]))
}

/// A file for each scheme, of a kind that occurs.
pub fn bench_files() -> Vec<(&'static str, Scheme, Vec<u8>)> {
    vec![
        ("halfword", Scheme::Halfword, halfword(-320, 5, 254)),
        ("float", Scheme::Float, float(16.0, 128.0)),
        ("precipitation", Scheme::Precip(0.254), precip(10.0, 1.0, [250, 1, 2])),
        ("precipitation without ceiling", Scheme::Precip(0.254), precip(10.0, 1.0, [0, 1, 2])),
        ("legacy", Scheme::Legacy(0.514444), legacy()),
        ("class", Scheme::Class, class()),
    ]
}

struct List(Vec<(String, Case)>);

impl List {
    fn add(&mut self, name: &str, case: Case) {
        self.0.push((name.into(), case));
    }

    fn sweep(&mut self, name: &str, clock: i128, scheme: Scheme, file: Vec<u8>, body: Vec<u8>) {
        let lent = Lent { azimuths: 10, codes: 64, physical: 64 };
        self.add(name, Case::Sweep { clock, scheme, lent, file, body });
    }

    fn gaps(&mut self, name: &str, scheme: Scheme, file: Vec<u8>, body: Vec<u8>) {
        let lent = Lent { azimuths: 10, codes: 64, physical: 64 };
        self.add(&format!("gaps_{name}"), Case::Gaps { clock: CLOCK, scheme, lent, marks: 10, file, body });
    }

    fn merge(&mut self, name: &str, scheme: Scheme, file: Vec<u8>, bodies: [Vec<u8>; 2]) {
        let (lent, [body, second]) = (Lent { azimuths: 10, codes: 64, physical: 64 }, bodies);
        self.add(&format!("merge_{name}"), Case::Merge { clock: CLOCK, scheme, lent, marks: 10, file, body, second });
    }

    fn plan(&mut self, name: &str, scheme: Scheme, file: Vec<u8>, body: Vec<u8>, plan: Vec<u8>) {
        let lent = Lent { azimuths: 10, codes: 64, physical: 64 };
        let sweep = Case::Sweep { clock: CLOCK, scheme, lent, file, body };
        self.add(&format!("plan_{name}"), sweep.with_plan(10, plan));
    }

    fn class(&mut self, name: &str, body: Vec<u8>) {
        self.sweep(name, CLOCK, Scheme::Class, class(), body);
    }
}

/// The lines of document 01, the edges of its table, and places that are easily misread.
pub fn edges() -> Vec<(String, Case)> {
    let mut list = List(vec![]);
    beams(&mut list);
    heads(&mut list);
    scales(&mut list);
    grids(&mut list);
    payloads(&mut list);
    buffers(&mut list);
    blocks(&mut list);
    smaller(&mut list);
    list.0
}

/// P1 to P13 and the slips.
fn beams(list: &mut List) {
    let seven_nine = p16(2, &[(2, 0, 10, &[7, 9])]);
    let runs = |data: &[u8]| af1f(5, &[(data.len() as u16 / 2, 0, 10, data)]);
    list.class("p1", header(16, 0, 2, 1)[..17].to_vec());
    list.class("p2", header(16, 0, 2, 1)[..18].to_vec());
    list.class("p3", header(17, 0, 2, 1)[..18].to_vec());
    list.class("p4", wrapped(&[]));
    list.class("p5", seven_nine.clone());
    list.class("p6_100", p16(2, &[(2, 0, 100, &[7, 9])]));
    list.class("p6_101", p16(2, &[(2, 0, 101, &[7, 9])]));
    list.class("p7", runs(&[0x31, 0x25]));
    list.class("p8", runs(&[0x31, 0x35]));
    list.class("p9", runs(&[0x31, 0x25, 0xf7, 0]));
    list.class("p10", p16(2, &[(2, 3599, 10, &[7, 9])]));
    list.class("p10_af1f", af1f(5, &[(1, 3599, 10, &[0x31, 0x25])]));
    let mut pairs = [0x80; 32];
    pairs[..2].copy_from_slice(&[0x21, 40]);
    list.add("p11", Case::Leg { thresholds: pairs, post_scale: 1.0 });
    list.add("p12", Case::Prc { file: precip(1.0, 0.0, [100, 9, 0]), block: 27, factor: 1.0 });
    list.add("p13", Case::Time { clock: 0, days: 1, seconds: 0 });
    list.class("slip_zero_run", runs(&[0x31, 0x00, 0x0f, 0x25]));
    list.add("slip_cap_before_pointer", Case::Xdr { ops: "l".into(), payload: words(&[10_001]) });
    list.add("slip_cap_after_pointer", Case::Xdr { ops: "l".into(), payload: words(&[10_001, 0]) });
    let good = component(1, 1, &[Ray(0.0, 1.0, 1, &[5])]);
    let bad = component(1, 1, &[Ray(0.0, 1.0, 1, &[70_000])]);
    list.class("slip_components_walked", wrapped(&components(2, &[good.clone(), bad])));
    list.class("slip_components_counted", wrapped(&components(2, &[good.clone(), good])));
}

/// 1 to 6.
fn heads(list: &mut List) {
    let body = p16(2, &[(2, 0, 10, &[7, 9])]);
    let class =
        |list: &mut List, name: &str, clock: i128, file: Vec<u8>| list.sweep(name, clock, Scheme::Class, file, body.clone());
    class(list, "nothing", CLOCK, vec![]);
    let mut no_token = self::class();
    no_token[2] = b'-';
    class(list, "no_token", CLOCK, no_token);
    let mut no_header = self::class();
    no_header[10] = 152;
    class(list, "no_header", CLOCK, no_header);
    for (end, index) in [(6, 2), (10, 4), (12, 6), (14, 7), (18, 9), (24, 12), (28, 13), (42, 21)] {
        class(list, &format!("field_{index}"), CLOCK, file(end - 1, &[]));
    }
    for (scheme, end, name) in [
        (Scheme::Halfword, 44, "hw22"),
        (Scheme::Halfword, 46, "hw23"),
        (Scheme::Halfword, 48, "hw24"),
        (Scheme::Float, 50, "pair"),
        (Scheme::Legacy(1.0), 74, "thresholds"),
    ] {
        list.sweep(&format!("cut_{name}"), CLOCK, scheme, file(end - 1, &[(22, &ONE.to_be_bytes())]), body.clone());
    }
    for end in [50, 54, 56, 58] {
        let file = file(end - 1, &[(22, &ONE.to_be_bytes())]);
        list.sweep(&format!("cut_precip_{end}"), CLOCK, Scheme::Precip(1.0), file, body.clone());
    }
    class(list, "days_0", CLOCK, file(42, &[(12, &[0, 0])]));
    class(list, "days_0_cut", CLOCK, file(41, &[(12, &[0, 0])]));
    class(list, "seconds_below", CLOCK, file(42, &[(13, &(-1i32).to_be_bytes())]));
    class(list, "seconds_86399", CLOCK, file(42, &[(13, &86_399i32.to_be_bytes())]));
    class(list, "seconds_86400", CLOCK, file(42, &[(13, &86_400i32.to_be_bytes())]));
    let scan = 19_999 * 86_400 + 3600;
    class(list, "ahead_86400", scan - 86_400, self::class());
    class(list, "ahead_86401", scan - 86_401, self::class());
    class(list, "clock_0", 0, self::class());
    class(list, "clock_top", 1 << 40, self::class());
    class(list, "clock_over", (1 << 40) + 1, self::class());
    class(list, "clock_over_days_0", (1 << 40) + 1, file(42, &[(12, &[0, 0])]));
    list.add("time_most_ahead", Case::Time { clock: 0, days: 65_535, seconds: 86_399 });
    list.sweep("clock_over_no_body", (1 << 40) + 1, Scheme::Class, self::class(), vec![]);
}

/// 7 to 10, every packet under every scheme.
fn scales(list: &mut List) {
    let codes: Vec<u8> = (0..8).chain([254, 255]).collect();
    let bodies = [
        ("16", p16(10, &[(10, 0, 10, &codes), (11, 3595, 10, &[9, 8, 7, 6, 5, 4, 3, 2, 1, 0, 99])])),
        (
            "af1f",
            af1f(
                16,
                &[(8, 0, 10, &std::array::from_fn::<u8, 16, _>(|i| 0x10 | i as u8)), (2, 10, 10, &[0xf3, 0x00, 0x1e, 0xff])],
            ),
        ),
        ("28", p28(&[Ray(0.0, 1.0, 4, &[0, 1, 2, 300]), Ray(359.5, 1.0, 4, &[3, 8, 65_534, 65_535])])),
    ];
    // with the packets of each: 0 is 16, 1 AF1F, 2 is 28
    let (any, bytes, one): (&[usize], &[usize], &[usize]) = (&[0, 1, 2], &[0, 1], &[0]);
    for (name, packets, scheme, file) in [
        ("halfword", any, Scheme::Halfword, halfword(-320, 5, 254)),
        ("halfword_levels", bytes, Scheme::Halfword, halfword(-32_768, 32_767, 65_535)),
        ("halfword_step_0", any, Scheme::Halfword, halfword(-320, 0, 254)),
        ("halfword_step_down", bytes, Scheme::Halfword, halfword(-320, -5, 254)),
        ("float", any, Scheme::Float, float(300.0, -60.5)),
        ("float_down", bytes, Scheme::Float, float(-16.0, 128.0)),
        ("float_tiny", one, Scheme::Float, float(f32::from_bits(1), 0.0)),
        ("float_tiny_down", one, Scheme::Float, float(f32::from_bits(0x8000_0001), 0.0)),
        ("float_scale_0", one, Scheme::Float, float(0.0, 0.0)),
        ("float_scale_minus_0", one, Scheme::Float, float(-0.0, 0.0)),
        ("float_scale_nan", one, Scheme::Float, float(f32::NAN, f32::NAN)),
        ("float_offset_inf", one, Scheme::Float, float(1.0, f32::INFINITY)),
        ("precip", any, Scheme::Precip(0.254), precip(10.0, 1.0, [255, 1, 2])),
        ("precip_rate", any, Scheme::Precip(25.4), precip(1000.0, 2.5, [65_535, 0, 0])),
        ("precip_no_ceiling", any, Scheme::Precip(0.254), precip(10.0, 1.0, [0, 3, 3])),
        ("precip_leading_9", any, Scheme::Precip(0.254), precip(10.0, 1.0, [255, 9, 0])),
        ("precip_leading_down", one, Scheme::Precip(0.254), precip(10.0, 1.0, [255, 65_535, 0])),
        ("precip_ceiling_low", any, Scheme::Precip(1.0), precip(10.0, 1.0, [5, 8, 8])),
        ("precip_down", any, Scheme::Precip(1.0), precip(-10.0, 1.0, [255, 2, 0])),
        ("precip_nan", one, Scheme::Precip(f32::NAN), precip(10.0, 1.0, [255, 2, 0])),
        ("precip_factor_0", one, Scheme::Precip(-0.0), precip(10.0, 1.0, [255, 2, 0])),
        ("precip_scale_inf", one, Scheme::Precip(1.0), precip(f32::INFINITY, 1.0, [255, 2, 0])),
        ("precip_offset_nan", one, Scheme::Precip(1.0), precip(10.0, f32::NAN, [255, 2, 0])),
        ("legacy", any, Scheme::Legacy(1.0), legacy()),
        ("legacy_knots", &[1], Scheme::Legacy(0.514444), legacy()),
        ("legacy_inf", &[1], Scheme::Legacy(f32::INFINITY), legacy()),
        ("class", any, Scheme::Class, class()),
    ] {
        for packet in packets {
            let (number, body) = &bodies[*packet];
            list.sweep(&format!("{number}_{name}"), CLOCK, scheme, file.clone(), body.clone());
        }
    }
    list.sweep("scale_before_body", CLOCK, Scheme::Float, float(0.0, 0.0), vec![]);
    list.sweep("body_before_step", CLOCK, Scheme::Halfword, halfword(0, 0, 1), vec![]);
}

/// 12 to 22.
fn grids(list: &mut List) {
    for (name, body) in [
        ("body_0", vec![]),
        ("body_29", header(16, 0, 2, 1)[..29].to_vec()),
        ("body_29_af1f", header(0xaf1f, 0, 2, 1)[..29].to_vec()),
        ("body_30", header(16, 0, 2, 1)),
        ("divider", [&[0, 7], &header(16, 0, 2, 1)[2..]].concat()),
        ("block_id", [&[0xff, 0xff, 0, 2], &header(16, 0, 2, 1)[4..]].concat()),
        ("code_signed", header(0xaf20, 0, 2, 1)),
        ("code_0", header(0, 0, 2, 1)),
        ("no_bins", header(0xaf1f, 0, 0, 3)),
        ("no_radials", header(16, 0, 3, 0)),
        ("neither", header(16, 5, 0, 0)),
        ("most_cells", header(16, 1, 65_535, 65_535)),
        ("cells_over", header(0xaf1f, 0, 2001, 2000)),
        ("cells_2000", header(16, 0, 2000, 2000)),
        ("cells_2000_af1f", header(0xaf1f, 0, 2000, 2000)),
        ("first_bin", header(16, 1, 5, 5)),
        ("first_bin_af1f", {
            let mut b = af1f(1, &[(1, 0, 10, &[0x1f, 0])]);
            b[18..20].fill(0xff);
            b
        }),
        ("allocation", header(16, 0, 5, 5)),
        ("allocation_one_short", p16(2, &[(2, 0, 10, &[7])])),
        ("no_six_bytes", p16(1, &[(8, 0, 10, &[1, 2, 3, 4, 5, 6, 7, 8]), (1, 0, 10, &[9])])[..44].to_vec()),
        ("no_six_bytes_af1f", af1f(1, &[(0, 0, 10, &[])])[..35].to_vec()),
        ("second_radial_cut", af1f(1, &[(1, 0, 10, &[0x10, 0]), (0, 0, 1, &[])])[..43].to_vec()),
        ("width_0", af1f(5, &[(9, 0, 0, &[])])),
        ("width_65535", p16(1, &[(1, 0, 65_535, &[1])])),
        ("count_past_end", af1f(5, &[(3, 0, 10, &[0x31, 0x25])])),
        ("count_under_bins", p16(2, &[(1, 0, 10, &[7, 9])])),
        ("count_65535", p16(2, &[(65_535, 0, 10, &[7, 9])])),
        ("row_and_more", p16(2, &[(5, 0, 10, &[7, 9, 1, 2, 3]), (2, 10, 10, &[4, 5])])),
        ("no_runs", af1f(5, &[(0, 0, 10, &[])])),
        ("first_run_over", af1f(5, &[(1, 0, 10, &[0xf1, 0x51])])),
        ("over_then_fits", af1f(5, &[(2, 0, 10, &[0x31, 0x35, 0x21, 0])])),
        ("zeros_only", af1f(5, &[(2, 0, 10, &[0x05, 0x06, 0, 0])])),
        ("short_in_second", af1f(3, &[(1, 0, 10, &[0x31, 0]), (1, 10, 10, &[0x11, 0x15])])),
        ("start_65535", p16(1, &[(1, 65_535, 10, &[120])])),
        ("centre_last", p16(1, &[(1, 3599, 1, &[1])])),
        ("centre_0_again", af1f(1, &[(1, 3595, 10, &[0x11, 0])])),
        ("centre_twice_round", p16(1, &[(1, 7199, 3, &[1])])),
        ("after_the_radials", [p16(1, &[(1, 5, 10, &[3])]), vec![1, 2, 3]].concat()),
    ] {
        list.class(name, body);
    }
}

/// 23 to 35.
fn payloads(list: &mut List) {
    let one = |rays: &[Ray], radials: i32| wrapped(&components(1, &[component(1, radials, rays)]));
    let ray = || Ray(0.0, 1.0, 1, &[5]);
    let string = |len: u32, rest: &[u8]| wrapped(&[&words(&[len])[..], rest].concat());
    for (name, body) in [
        ("packet_23", generic(0, &[])[..23].to_vec()),
        ("length_negative", generic(-1, &[0; 8])),
        ("length_over", generic(9, &[0; 8])),
        ("length_lowest", generic(i32::MIN, &[0; 8])),
        ("string_body", string(5, b"abcd")),
        ("padding", string(1, b"ab\0")),
        ("int", wrapped(&product()[..10])),
        ("uint", wrapped(&product()[..18])),
        ("float", wrapped(&product()[..26])),
        ("string_4097", string(4097, b"")),
        ("string_most", string(u32::MAX, b"")),
        ("list_10001", wrapped(&[product(), words(&[10_001, 0])].concat())),
        ("list_negative", wrapped(&[product(), words(&[u32::MAX, 0, 0, 0])].concat())),
        ("no_component", wrapped(&[components(0, &[]), vec![1, 2, 3, 4]].concat())),
        ("components_negative", wrapped(&components(-5, &[]))),
        ("component_type", wrapped(&components(1, &[component(2, 1, &[ray()])]))),
        ("second_type", wrapped(&components(2, &[component(1, 1, &[ray()]), component(2, 1, &[])]))),
        ("radials_0", one(&[], 0)),
        ("radials_negative", one(&[], -3)),
        ("radials_100001", one(&[], 100_001)),
        ("bins_negative", one(&[ray(), Ray(0.0, 1.0, -1, &[5])], 2)),
        ("bins_0", one(&[Ray(0.0, 1.0, 0, &[])], 1)),
        ("bins_negative_array_cut", wrapped(&components(1, &[component(1, 1, &[Ray(0.0, 1.0, -1, &[5])])])[..140])),
        ("bins_unlike", one(&[ray(), Ray(0.0, 1.0, 2, &[5])], 2)),
        ("data_unlike", one(&[Ray(0.0, 1.0, 100, &[5])], 100_000)),
        ("grid_over", one(&[Ray(0.0, 1.0, 41, &[70_000; 41])], 100_000)),
        ("level_over", one(&[Ray(0.0, 1.0, 3, &[5, 65_536, -1])], 2)),
        ("level_negative", one(&[ray(), Ray(0.0, 1.0, 1, &[-1])], 2)),
        ("level_most", one(&[Ray(0.0, 1.0, 2, &[65_535, 0])], 1)),
        ("left_over", wrapped(&[components(1, &[component(1, 1, &[ray()])]), vec![0]].concat())),
        ("past_the_payload", [p28(&[ray()]), vec![9; 5]].concat()),
        ("centre_360", p28(&[Ray(359.5, 1.0, 1, &[5])])),
        ("centre_negative", p28(&[Ray(-1.0, 0.5, 1, &[5])])),
        ("centre_minus_zero", p28(&[Ray(-360.0, 0.0, 1, &[5])])),
        ("centre_far", p28(&[Ray(1.0e30, 1.0, 1, &[5])])),
        ("centre_infinite", p28(&[Ray(f32::INFINITY, 1.0, 1, &[5])])),
        ("centre_nan", p28(&[Ray(0.0, f32::NAN, 1, &[5])])),
    ] {
        list.class(name, body);
    }
    let array = components(1, &[component(1, 1, &[Ray(0.0, 1.0, 2, &[5, 6])])]);
    let mut cut = wrapped(&array[..array.len() - 4]);
    list.class("array_cut", cut.clone());
    let count = cut.len() - 8;
    cut[count..count + 4].copy_from_slice(&100_001u32.to_be_bytes());
    list.class("array_100001", cut);
}

/// 36.
fn buffers(list: &mut List) {
    let body = p16(2, &[(2, 0, 10, &[7, 9]), (2, 10, 10, &[1, 2])]);
    for (name, azimuths, codes, physical) in [
        ("lent_exactly", 2, 4, 4),
        ("lent_azimuths", 1, 4, 4),
        ("lent_codes", 2, 3, 4),
        ("lent_physical", 2, 4, 3),
        ("lent_last_two", 2, 0, 0),
        ("lent_nothing", 0, 0, 0),
    ] {
        let lent = Lent { azimuths, codes, physical };
        list.add(name, Case::Sweep { clock: CLOCK, scheme: Scheme::Class, lent, file: class(), body: body.clone() });
    }
    let nothing = Lent { azimuths: 0, codes: 0, physical: 0 };
    let sweep = |scheme, file, body| Case::Sweep { clock: CLOCK, scheme, lent: nothing, file, body };
    list.add("step_before_lent", sweep(Scheme::Halfword, halfword(0, 0, 1), body.clone()));
    list.add("mismatch_before_lent", sweep(Scheme::Legacy(1.0), legacy(), body));
    list.add("walk_before_lent", sweep(Scheme::Class, class(), af1f(5, &[(1, 0, 10, &[0x11, 0])])));
}

/// M-101, after the samples.
pub fn gaps() -> Vec<(String, Case)> {
    let mut list = List(vec![]);
    let (whole, short): (&[u8], &[u8]) = (&[0x31, 0x25], &[0x31, 0x35]);
    let rays = |levels: [&'static [i32]; 3]| p28(&levels.map(|row| Ray(10.0, 1.0, 3, row)));
    let (good, bad): (&[i32], &[i32]) = (&[5, 0, 65_535], &[5, 65_536, 7]);
    let runs = |rows: [&[u8]; 3]| af1f(5, &rows.map(|data| (data.len() as u16 / 2, 3599, 10, data)));
    let bytes = p16(2, &[(3, 0, 10, &[7, 9, 0]), (2, 3599, 10, &[0, 255])]);
    for (name, scheme, file) in [
        ("halfword", Scheme::Halfword, halfword(-320, 5, 254)),
        ("float", Scheme::Float, float(16.0, 128.0)),
        ("precip", Scheme::Precip(0.254), precip(10.0, 1.0, [250, 1, 2])),
        ("floor_0", Scheme::Precip(25.4), precip(10.0, 1.0, [255, 0, 2])),
        ("legacy", Scheme::Legacy(0.514444), legacy()),
        ("class", Scheme::Class, class()),
    ] {
        list.gaps(&format!("af1f_{name}"), scheme, file.clone(), runs([whole, short, &[0x20, 0x3f]]));
        if matches!(scheme, Scheme::Precip(_) | Scheme::Class) {
            list.gaps(&format!("28_{name}"), scheme, file.clone(), rays([bad, good, &[0, 1, 2]]));
        }
        if !matches!(scheme, Scheme::Legacy(_)) {
            list.gaps(&format!("16_{name}"), scheme, file, bytes.clone());
        }
    }
    let two = |first: i32| [first, 5].map(|level| component(1, 1, &[Ray(0.0, 1.0, 1, &[level])]));
    let next = |width: u16| af1f(5, &[(1, 0, 10, short), (1, 10, width, whole)]);
    for (name, body) in [
        ("af1f_none", runs([whole, whole, &[0x31, 0x00, 0x25, 0xff]])),
        ("af1f_all", runs([short, &[], &[0x0f, 0xf1]])),
        ("af1f_then_19", next(10)[..41].to_vec()),
        ("af1f_then_20", next(101)),
        ("af1f_then_21", next(10)[..45].to_vec()),
        ("28_none", rays([good, good, &[1, 2, 3]])),
        ("28_all", rays([bad, &[-1, 0, 0], &[0, 0, i32::MIN]])),
        ("28_then_31", p28(&[Ray(0.0, 1.0, 1, &[-1]), Ray(1.0, 1.0, 2, &[5, 6])])),
        ("28_then_32", p28(&[Ray(0.0, 1.0, 1, &[-1]), Ray(1.0, 1.0, 1, &[5, 6])])),
        ("28_then_28", wrapped(&components(2, &two(70_000)))),
        ("28_then_35", wrapped(&[components(1, &two(-1)[..1]), vec![0]].concat())),
    ] {
        list.gaps(name, Scheme::Class, class(), body);
    }
    list.gaps("28_then_10", Scheme::Halfword, halfword(-320, 0, 254), rays([bad, good, good]));
    list.gaps("af1f_then_9", Scheme::Halfword, halfword(-320, 0, 254), runs([short, whole, whole]));
    for (name, azimuths, codes, physical, marks) in [
        ("lent_exactly", 3, 15, 15, 3),
        ("lent_azimuths", 2, 0, 0, 0),
        ("lent_codes", 3, 14, 0, 0),
        ("lent_physical", 3, 15, 14, 0),
        ("lent_marks", 3, 15, 15, 2),
    ] {
        let lent = Lent { azimuths, codes, physical };
        let (file, body) = (class(), runs([whole, short, whole]));
        list.add(&format!("gaps_{name}"), Case::Gaps { clock: CLOCK, scheme: Scheme::Class, lent, marks, file, body });
    }
    list.0
}

/// M-111: receptions under every scheme with rows whole in one body, in both and in none; each figure that differs, rows of other codes,
/// and the order of the refusals.
pub fn merges() -> Vec<(String, Case)> {
    let mut list = List(vec![]);
    let (whole, short): (&[u8], &[u8]) = (&[0x31, 0x25], &[0x31, 0x35]);
    let rays = |levels: [&'static [i32]; 3]| p28(&levels.map(|row| Ray(10.0, 1.0, 3, row)));
    let (good, bad): (&[i32], &[i32]) = (&[5, 0, 65_535], &[5, 65_536, 7]);
    let runs = |rows: [&[u8]; 3]| af1f(5, &rows.map(|data| (data.len() as u16 / 2, 3599, 10, data)));
    let bytes = || p16(2, &[(3, 0, 10, &[7, 9, 0]), (2, 3599, 10, &[0, 255])]);
    for (name, scheme, file) in [
        ("halfword", Scheme::Halfword, halfword(-320, 5, 254)),
        ("float", Scheme::Float, float(16.0, 128.0)),
        ("precip", Scheme::Precip(0.254), precip(10.0, 1.0, [250, 1, 2])),
        ("floor_0", Scheme::Precip(25.4), precip(10.0, 1.0, [255, 0, 2])),
        ("legacy", Scheme::Legacy(0.514444), legacy()),
        ("class", Scheme::Class, class()),
    ] {
        let bodies = [runs([whole, short, short]), runs([short, whole, short])];
        list.merge(&format!("af1f_{name}"), scheme, file.clone(), bodies);
        if matches!(scheme, Scheme::Precip(_) | Scheme::Class) {
            list.merge(&format!("28_{name}"), scheme, file.clone(), [rays([bad, good, bad]), rays([good, bad, bad])]);
        }
        if !matches!(scheme, Scheme::Legacy(_)) {
            list.merge(&format!("16_{name}"), scheme, file, [bytes(), bytes()]);
        }
    }
    let all = || runs([whole, whole, whole]);
    let beams = |start: u16, width: u16, range: u8| {
        let mut body = af1f(5, &[(1, 0, 10, whole), (1, start, width, whole)]);
        body[27] = range;
        body
    };
    let ray = |azimuth: f32, width: f32| p28(&[Ray(azimuth, width, 1, &[5])]);
    for (name, one, other) in [
        ("other_codes", all(), runs([whole, short, &[0x31, 0x26]])),
        ("other_codes_twice", runs([short, &[0x11, 0x45], &[0x55, 0x00]]), all()),
        ("gap_beside_other_codes", runs([short, whole, whole]), runs([&[0x55, 0x00], short, whole])),
        ("other_runs_same_codes", runs([&[0x11, 0x41], whole, &[0x31, 0x00, 0x25, 0xff]]), runs([&[0x31, 0x21], whole, whole])),
        ("no_gap", all(), all()),
        ("16_unused_bytes", p16(2, &[(3, 0, 10, &[7, 9, 0])]), p16(2, &[(3, 0, 10, &[7, 9, 1])])),
        ("16_other_codes", p16(2, &[(2, 0, 10, &[7, 9])]), p16(2, &[(2, 0, 10, &[7, 8])])),
        ("28_other_codes", rays([good, good, good]), rays([bad, good, &[5, 0, 65_534]])),
        ("other_packet", p16(5, &[(5, 0, 10, &[1, 1, 1, 5, 5])]), af1f(5, &[(1, 0, 10, whole)])),
        ("other_radials", all(), af1f(5, &[(1, 3599, 10, whole)])),
        ("other_bins", all(), af1f(4, &[whole, whole, whole].map(|_| (1, 3599, 10, &[0x31, 0x15][..])))),
        ("other_range_scale", beams(10, 10, 1), beams(10, 10, 2)),
        ("other_centre", beams(10, 10, 1), beams(10, 12, 1)),
        ("same_centre", beams(10, 10, 1), beams(11, 8, 1)),
        ("other_centre_before_other_codes", runs([whole, whole, whole]), af1f(5, &[(1, 3599, 10, &[0x55, 0]), (1, 3599, 10, whole), (1, 0, 10, whole)])),
        ("28_zeros", ray(0.0, 0.0), ray(-0.0, -0.0)),
        ("28_nans", ray(f32::NAN, 1.0), ray(1.0, -f32::NAN)),
        ("first_19", all()[..41].to_vec(), vec![0; 18]),
        ("second_13", all(), vec![0; 18]),
        ("second_before_43", beams(10, 10, 1), beams(10, 101, 2)),
        ("clear", header(0xaf1f, 0, 5, 0), header(0xaf1f, 0, 5, 0)),
        ("clear_and_other", header(0xaf1f, 0, 5, 0), all()),
    ] {
        list.merge(name, Scheme::Class, class(), [one, other]);
    }
    list.merge("second_10", Scheme::Legacy(1.0), legacy(), [all(), bytes()]);
    list.merge("first_9", Scheme::Halfword, halfword(-320, 0, 254), [all(), vec![]]);
    for (name, azimuths, codes, physical, marks) in [
        ("lent_exactly", 3, 15, 15, 3),
        ("lent_azimuths", 2, 0, 0, 0),
        ("lent_codes", 3, 14, 0, 0),
        ("lent_physical", 3, 15, 14, 0),
        ("lent_marks", 3, 15, 15, 2),
    ] {
        let lent = Lent { azimuths, codes, physical };
        let (file, body, second) = (class(), runs([short, whole, short]), all());
        let case = Case::Merge { clock: CLOCK, scheme: Scheme::Class, lent, marks, file, body, second };
        list.add(&format!("merge_{name}"), case);
    }
    let lent = Lent { azimuths: 0, codes: 0, physical: 0 };
    let (file, body, second) = (class(), all(), runs([whole, whole, &[0x55, 0]]));
    let case = Case::Merge { clock: CLOCK, scheme: Scheme::Class, lent, marks: 0, file, body, second };
    list.add("merge_44_before_36", case);
    list.0
}

/// M-102: the first day and the last, and the ends of months and years, of Februaries of every kind above all.
pub fn dates() -> Vec<(String, Case)> {
    let days =
        [0, 1, 31, 32, 59, 60, 365, 366, 789, 790, 791, 11_017, 11_018, 20_000, 47_541, 47_542, 65_530, 65_531, 65_535];
    days.map(|days| (format!("date_{days}"), Case::Date { days })).to_vec()
}

/// M-104: totals of all three packets, each refusal and each bound, and the order of the refusals.
pub fn plans() -> Vec<(String, Case)> {
    let mut list = List(vec![]);
    let file = || precip(10.0, 1.0, [250, 2, 1]);
    let bytes = || p16(4, &[(4, 0, 10, &[1, 2, 3, 249]), (5, 10, 10, &[250, 255, 0, 100, 9])]);
    let runs = || af1f(4, &[(2, 0, 10, &[0x13, 0x27, 0x01, 0x1f]), (1, 10, 10, &[0x31, 0x12])]);
    let levels = || p28(&[Ray(0.0, 1.0, 4, &[1, 2, 3, 249]), Ray(10.0, 1.0, 4, &[250, 65_535, 0, 100])]);
    let strip = |radial, first, count, weight| Strip([radial, first, count, weight]);
    let two = || vec![Field(9), strip(0, 0, 4, 10), strip(1, 3, 1, 7), Field(3), strip(0, 1, 2, 65_535), strip(0, 2, 1, 1)];
    let most = || precip(1000.0, 2.5, [65_535, 0, 0]);
    for (name, file, body, plan) in [
        ("16", file(), bytes(), two()),
        ("af1f", file(), runs(), two()),
        ("28", file(), levels(), two()),
        ("empty", file(), bytes(), vec![]),
        ("field_alone", file(), bytes(), vec![Field(65_535), Field(0)]),
        ("cut_in_two", file(), bytes(), [&two()[..1], &[strip(0, 3, 1, 10), strip(0, 0, 3, 10)], &two()[2..]].concat()),
        ("moved", file(), bytes(), [&two()[..1], &[strip(1, 3, 1, 7), strip(0, 0, 4, 10)], &two()[3..]].concat()),
        ("code_moved", file(), p16(4, &[(4, 0, 10, &[1, 2, 13, 249]), (4, 10, 10, &[250, 255, 0, 100])]), two()),
        ("no_ceiling", precip(10.0, 1.0, [0, 2, 1]), levels(), two()),
        ("ceiling_low", precip(10.0, 1.0, [5, 8, 8]), levels(), two()),
        ("ceiling_alone", precip(10.0, 1.0, [4, 3, 1]), levels(), vec![Field(1), strip(0, 0, 4, 5)]),
        ("most", most(), levels(), vec![Field(1), strip(1, 1, 1, 65_535), strip(1, 1, 1, 65_535), strip(1, 0, 4, 0)]),
    ] {
        list.plan(name, PRECIP, file, body, plans::bytes(&plan));
    }
    // refused by the plan alone
    let head = |then: &[Record]| plans::bytes(&[&two()[..], then].concat());
    let raw = |bytes: &[u8]| Raw(bytes.to_vec());
    for (name, plan) in [
        ("cut_tag", head(&[raw(&[1])])),
        ("cut_length", head(&[raw(&[2, 0])])),
        ("cut_field", head(&[raw(&[1, 0, 2, 0])])),
        ("cut_strip", head(&[raw(&[2, 0, 8, 0, 0, 0, 0, 0, 1, 0])])),
        ("tag_0", head(&[raw(&[0, 0, 0])])),
        ("tag_3", head(&[raw(&[3, 0, 2, 0, 1])])),
        ("field_length", head(&[raw(&[1, 0, 3, 0, 4, 0])])),
        ("strip_length", head(&[raw(&[2, 0, 6, 0, 0, 0, 0, 0, 1])])),
        ("length_turned", head(&[raw(&[1, 2, 0, 0, 4])])),
        ("strip_first", plans::bytes(&[strip(0, 0, 1, 1), Field(1)])),
        ("no_gates", head(&[strip(0, 0, 0, 1)])),
        ("repeated", head(&[Field(4), Field(9), Field(9)])),
        ("radial_outside", head(&[strip(2, 0, 1, 1), strip(3, 0, 1, 1)])),
        ("gate_outside", head(&[strip(0, 4, 1, 1)])),
        ("count_outside", head(&[strip(1, 1, 4, 1)])),
        ("sum_past_16_bits", head(&[strip(0, 65_535, 2, 1)])),
        ("repeated_then_cut", head(&[Field(3), raw(&[1, 0])])),
        ("repeated_then_no_gates", head(&[Field(3), strip(0, 0, 0, 1)])),
        ("outside_then_repeated", head(&[strip(9, 0, 1, 1), Field(3)])),
        ("outside_then_tag_3", head(&[strip(9, 0, 1, 1), Field(3), raw(&[3, 0, 0])])),
        ("outside_and_no_gates", head(&[strip(9, 9, 0, 1)])),
    ] {
        list.plan(name, PRECIP, file(), bytes(), plan);
    }
    // 10 for every other scheme, where 10 stands
    let good = || plans::bytes(&two());
    for (name, scheme, file, body, plan) in [
        ("halfword", Scheme::Halfword, halfword(-320, 5, 254), bytes(), good()),
        ("halfword_step_0", Scheme::Halfword, halfword(-320, 0, 254), bytes(), good()),
        ("float_scale_0", Scheme::Float, float(0.0, 0.0), bytes(), good()),
        ("legacy", Scheme::Legacy(1.0), legacy(), runs(), good()),
        ("class", Scheme::Class, class(), levels(), head(&[raw(&[3])])),
        ("class_no_row", Scheme::Class, class(), af1f(5, &[(1, 0, 10, &[0x31, 0x35])]), good()),
        ("precip_no_row", PRECIP, precip(10.0, 1.0, [250, 2, 1]), af1f(5, &[(1, 0, 10, &[0x31, 0x35])]), vec![9]),
        ("scale_0", PRECIP, precip(0.0, 1.0, [250, 2, 1]), bytes(), vec![9]),
    ] {
        list.plan(name, scheme, file, body, plan);
    }
    for (name, scheme, file, azimuths, codes, physical, totals, plan) in [
        ("lent_exactly", PRECIP, file(), 2, 8, 8, 2, good()),
        ("lent_totals", PRECIP, file(), 2, 8, 8, 1, good()),
        ("lent_no_totals", PRECIP, file(), 2, 8, 8, 0, vec![]),
        ("lent_physical", PRECIP, file(), 2, 8, 7, 0, vec![3]),
        ("lent_totals_cut", PRECIP, file(), 2, 8, 8, 0, head(&[raw(&[1])])),
        ("lent_totals_repeated", PRECIP, file(), 2, 8, 8, 0, head(&[Field(9)])),
        ("lent_totals_outside", PRECIP, file(), 2, 8, 8, 0, head(&[strip(2, 0, 1, 1)])),
        ("lent_nothing_class", Scheme::Class, class(), 0, 0, 0, 0, good()),
    ] {
        let lent = Lent { azimuths, codes, physical };
        let sweep = Case::Sweep { clock: CLOCK, scheme, lent, file, body: bytes() };
        list.add(&format!("plan_{name}"), sweep.with_plan(totals, plan));
    }
    list.0
}

/// M-106: charges of one band and of several, and every bound of a tariff.
pub fn charges() -> Vec<(String, Case)> {
    const TOP: u64 = 1 << 40;
    let mut list = List(vec![]);
    for (name, total, ends, rates) in [
        ("nothing", 0, &[TOP][..], &[65_535][..]),
        ("one_band", 1999, &[TOP], &[1]),
        ("rounded_once", 30, &[10, 20, TOP], &[99, 99, 99]),
        ("end_of_band", 1000, &[1000, TOP], &[3, 50]),
        ("into_next_band", 1001, &[1000, TOP], &[3, 50]),
        ("first_end_0", 7, &[0, TOP], &[65_535, 1000]),
        ("rate_0", 5000, &[1000, TOP], &[0, 2]),
        ("eight_bands", 40, &[1, 2, 4, 8, 16, 32, 64, TOP], &[1, 20, 300, 4000, 50_000, 6000, 700, 80]),
        ("top", TOP, &[TOP], &[65_535]),
        ("top_in_last_band", TOP, &[TOP - 1, u64::MAX], &[0, 65_535]),
        ("bands_past_top", TOP, &[5, TOP, TOP + 1, u64::MAX], &[1, 2, 3, 4]),
        ("no_bands", 0, &[], &[]),
        ("nine_bands", 0, &[1, 2, 3, 4, 5, 6, 7, 8, TOP], &[1, 1, 1, 1, 1, 1, 1, 1, 1]),
        ("rate_missing", 0, &[1, TOP], &[1]),
        ("end_missing", 0, &[TOP], &[1, 1]),
        ("equal_ends", 0, &[5, 5, TOP], &[1, 1, 1]),
        ("equal_last_ends", 0, &[TOP, TOP], &[1, 1]),
        ("ends_descend", 0, &[6, 5, TOP], &[1, 1, 1]),
        ("last_end_low", 0, &[TOP - 1], &[1]),
        ("last_end_below_first", 0, &[TOP, 5], &[1, 1]),
        ("rate_65535", 1000, &[TOP], &[65_535]),
        ("rate_65536", 1000, &[TOP], &[65_536]),
        ("rate_most", 1000, &[1, TOP], &[u32::MAX, 1]),
        ("above_top", TOP + 1, &[u64::MAX], &[1]),
        ("most", u64::MAX, &[u64::MAX], &[1]),
        ("malformed_and_above", TOP + 1, &[TOP - 1], &[1]),
    ] {
        let (ends, rates) = (ends.to_vec(), rates.to_vec());
        list.add(&format!("charge_{name}"), Case::Charge { total, ends, rates });
    }
    list.0
}

/// Clear scans (M-107): under every scheme, with what is refused of them, with gaps and with a plan.
pub fn clear() -> Vec<(String, Case)> {
    let mut list = List(vec![]);
    let (clear16, clear_af1f) = (header(16, 0, 5, 0), header(0xaf1f, 0, 5, 0));
    let rain = || precip(10.0, 1.0, [251, 2, 2]);
    let fields = plans::bytes(&[Field(9), Field(3)]);
    for (name, scheme, file) in [
        ("halfword", Scheme::Halfword, halfword(-320, 5, 254)),
        ("float", Scheme::Float, float(16.0, 128.0)),
        ("precip", PRECIP, rain()),
        ("legacy", Scheme::Legacy(1.0), legacy()),
        ("class", Scheme::Class, class()),
    ] {
        list.sweep(&format!("clear_16_{name}"), CLOCK, scheme, file.clone(), clear16.clone());
        list.sweep(&format!("clear_af1f_{name}"), CLOCK, scheme, file, clear_af1f.clone());
    }
    for (name, body) in [
        ("one_bin", header(0xaf1f, 0, 1, 0)),
        ("most_bins", header(16, 0, 65_535, 0)),
        ("first_bin", header(16, 1, 5, 0)),
        ("first_bin_af1f", header(0xaf1f, 0xffff, 5, 0)),
        ("no_bins", header(16, 0, 0, 0)),
        ("no_bins_af1f", header(0xaf1f, 1, 0, 0)),
        ("more_bytes", [&clear16[..], &[0xff; 9]].concat()),
        ("a_radial_unsaid", [&clear_af1f[..], &[0, 1, 0, 0, 0, 10, 0x50, 0]].concat()),
        ("body_29", clear16[..29].to_vec()),
        ("divider", [&[0, 7], &clear16[2..]].concat()),
    ] {
        list.class(&format!("clear_{name}"), body);
    }
    list.sweep("clear_step_0", CLOCK, Scheme::Halfword, halfword(-320, 0, 254), clear16.clone());
    list.sweep("clear_first_bin_legacy", CLOCK, Scheme::Legacy(1.0), legacy(), header(16, 1, 5, 0));
    list.add("clear_sym", Case::Sym { body: clear_af1f.clone() });
    let nothing = Lent { azimuths: 0, codes: 0, physical: 0 };
    let unlent =
        |file: Vec<u8>, scheme: Scheme| Case::Sweep { clock: CLOCK, scheme, lent: nothing, file, body: clear16.clone() };
    list.add("clear_lent_nothing", unlent(class(), Scheme::Class));
    list.add("clear_gaps_lent_nothing", unlent(class(), Scheme::Class).with_marks(0));
    list.gaps("clear_16", Scheme::Halfword, halfword(-320, 5, 254), clear16.clone());
    list.gaps("clear_af1f", Scheme::Legacy(1.0), legacy(), clear_af1f.clone());
    list.gaps("clear_first_bin", Scheme::Class, class(), header(16, 1, 5, 0));
    list.add("clear_plan_lent_nothing", unlent(rain(), PRECIP).with_plan(0, vec![]));
    list.add("clear_plan_lent_no_totals", unlent(rain(), PRECIP).with_plan(0, fields.clone()));
    for (name, scheme, file, plan) in [
        ("fields", PRECIP, rain(), fields.clone()),
        ("strip", PRECIP, rain(), plans::bytes(&[Field(9), Field(3), Strip([0, 0, 1, 1])])),
        ("second_strip", PRECIP, rain(), plans::bytes(&[Field(9), Strip([0, 0, 5, 0]), Field(3), Strip([0, 0, 1, 1])])),
        ("strip_repeated", PRECIP, rain(), plans::bytes(&[Field(9), Strip([0, 0, 1, 1]), Field(9)])),
        ("strip_cut", PRECIP, rain(), [plans::bytes(&[Field(9), Strip([0, 0, 1, 1])]), vec![1]].concat()),
        ("class", Scheme::Class, class(), fields),
    ] {
        list.plan(&format!("clear_{name}"), scheme, file, clear_af1f.clone(), plan);
    }
    list.0
}

/// M-109: exports with odd and even rows, of clear scans, each refusal and each bound, and the order of the refusals.
pub fn exports() -> Vec<(String, Case)> {
    let mut list = List(vec![]);
    let odd = || af1f(5, &[(1, 3599, 10, &[0x31, 0x25]), (2, 9, 100, &[0x00, 0x1f, 0x0e, 0x4d])]);
    let even = || af1f(4, &[(2, 0, 1, &[0x13, 0x27, 0x01, 0x1f]), (1, 65_535, 10, &[0x31, 0x12])]);
    let runs: Vec<u8> = (0..20).map(|i| 0xd0 | i * 3 % 16).collect();
    let clear = |first_bin: u16, bins: u16| header(0xaf1f, first_bin, bins, 0);
    let short = || af1f(5, &[(1, 0, 10, &[0x31, 0x25]), (1, 10, 10, &[0x31, 0x35])]);
    for (name, out, body) in [
        // accepted
        ("odd", 64, odd()),
        ("even", 64, even()),
        ("one_bin", 64, af1f(1, &[(1, 0, 10, &[0x1f, 0])])),
        ("surplus", 64, af1f(5, &[(2, 0, 10, &[0x31, 0x25, 0xf7, 0])])),
        ("over_after_row", 64, af1f(5, &[(2, 0, 10, &[0x31, 0x25, 0x01, 0xff])])),
        ("after_the_radials", 64, [even(), vec![1, 2, 3]].concat()),
        ("blocks", 400, af1f(130, &[(5, 0, 10, &runs[..10]), (5, 10, 10, &runs[10..])])),
        (
            "blocks_odd",
            400,
            af1f(129, &[(5, 0, 10, &[&runs[..9], &[0xc7]].concat()), (5, 10, 10, &[&[0xc7], &runs[11..]].concat())]),
        ),
        ("clear", 64, clear(0, 5)),
        ("clear_65534", 64, clear(0, 65_534)),
        ("clear_more_bytes", 64, [clear(0, 1), vec![0, 1, 0, 0, 0, 10, 0x10, 0]].concat()),
        // the block header and the code
        ("body_0", 64, vec![]),
        ("body_17", 64, odd()[..17].to_vec()),
        ("body_17_code_16", 64, header(16, 0, 2, 1)[..17].to_vec()),
        ("divider", 64, [&[0, 7], &odd()[2..]].concat()),
        ("divider_code_16", 64, [&[0, 7], &header(16, 0, 2, 1)[2..]].concat()),
        ("block_id", 64, [&[0xff, 0xff, 0, 2], &odd()[4..]].concat()),
        ("code_16", 64, p16(2, &[(2, 0, 10, &[7, 9])])),
        ("code_16_cut", 64, header(16, 0, 2, 1)[..18].to_vec()),
        ("code_16_clear", 64, header(16, 0, 5, 0)),
        ("code_28", 64, p28(&[Ray(0.0, 1.0, 1, &[5])])),
        ("code_28_cut", 64, generic(0, &[])[..18].to_vec()),
        ("code_signed", 64, header(0xaf20, 0, 2, 1)),
        ("code_17", 64, header(17, 0, 2, 1)[..18].to_vec()),
        // the packet's header
        ("body_18", 64, odd()[..18].to_vec()),
        ("body_29", 64, clear(1, 65_535)[..29].to_vec()),
        ("no_bins", 64, header(0xaf1f, 1, 0, 3)),
        ("clear_no_bins", 64, clear(1, 0)),
        ("cells_over", 64, header(0xaf1f, 1, 2001, 2000)),
        ("cells_2000", 64, header(0xaf1f, 0, 2000, 2000)),
        ("first_bin", 64, header(0xaf1f, 1, 5, 1)),
        ("first_bin_most", 64, header(0xaf1f, 65_535, 5, 1)),
        ("clear_first_bin", 64, clear(256, 5)),
        ("first_bin_long", 64, header(0xaf1f, 1, 65_535, 1)),
        ("long", 64, header(0xaf1f, 0, 65_535, 1)),
        ("long_61", 64, header(0xaf1f, 0, 65_535, 61)),
        ("long_62", 64, header(0xaf1f, 1, 65_535, 62)),
        ("long_65534", 64, header(0xaf1f, 0, 65_534, 61)),
        ("clear_long", 64, clear(0, 65_535)),
        ("long_lent_nothing", 0, clear(0, 65_535)),
        // the radials
        ("no_six_bytes", 64, odd()[..43].to_vec()),
        ("width_0", 64, af1f(5, &[(1, 0, 0, &[0x31, 0x25])])),
        ("width_101", 64, af1f(5, &[(1, 0, 10, &[0x31, 0x25]), (1, 0, 101, &[0x31, 0x25])])),
        ("count_past_end", 64, odd()[..47].to_vec()),
        ("no_row", 64, short()),
        ("no_row_lent_nothing", 0, short()),
        // the buffer
        ("lent_exactly", 54, odd()),
        ("lent_one_short", 53, odd()),
        ("lent_nothing", 0, odd()),
        ("even_lent_exactly", 50, even()),
        ("even_lent_one_short", 49, even()),
        ("clear_lent_exactly", 30, clear(0, 5)),
        ("clear_lent_one_short", 29, clear(0, 5)),
    ] {
        list.add(&format!("export_{name}"), Case::Export { out, body });
    }
    list.0
}

/// M-112: bodies with and without surplus, each bound of 45 and 46, and their place among the other refusals.
pub fn strict() -> Vec<(String, Case)> {
    let mut list = List(vec![]);
    let tail = |body: Vec<u8>, more: &[u8]| [&body[..], more].concat();
    let (full, over) = ((1, 0, 10, &[0x31, 0x25][..]), (2, 0, 10, &[0x31, 0x25, 0x00, 0x10][..]));
    let rays = || p28(&[Ray(10.0, 1.0, 2, &[1, 2]), Ray(11.0, 1.0, 2, &[3, 4])]);
    for (name, body) in [
        // packet 16: the count
        ("16_even", p16(4, &[(4, 0, 10, &[1, 2, 3, 4])])),
        ("16_even_more", p16(4, &[(5, 0, 10, &[1, 2, 3, 4, 0])])),
        ("16_odd", p16(3, &[(3, 0, 10, &[1, 2, 3])])),
        ("16_odd_more", p16(3, &[(4, 0, 10, &[1, 2, 3, 0])])),
        ("16_odd_more_any", p16(3, &[(4, 0, 10, &[1, 2, 3, 255])])),
        ("16_odd_two_more", p16(3, &[(5, 0, 10, &[1, 2, 3, 0, 0])])),
        ("16_odd_mixed", p16(3, &[(3, 0, 10, &[1, 2, 3]), (4, 10, 10, &[4, 5, 6, 7]), (3, 20, 10, &[8, 9, 10])])),
        ("16_one_bin_more", p16(1, &[(2, 0, 10, &[7, 0])])),
        ("16_lowest", p16(2, &[(2, 0, 10, &[1, 2]), (4, 10, 10, &[3, 4, 5, 6]), (3, 20, 10, &[7, 8, 9])])),
        // AF1F: the run lengths
        ("af1f", af1f(5, &[full])),
        ("af1f_zero_after_row", af1f(5, &[(2, 0, 10, &[0x31, 0x25, 0x00, 0x0f])])),
        ("af1f_zero_in_row", af1f(5, &[(2, 0, 10, &[0x07, 0x31, 0x00, 0x25])])),
        ("af1f_run_after_row", af1f(5, &[over])),
        ("af1f_pad_not_zero", af1f(3, &[(1, 0, 10, &[0x31, 0x10])])),
        ("af1f_lowest", af1f(5, &[full, over, over])),
        // before 45: a later radial's refusals
        ("over_then_19", tail(af1f(5, &[over, full])[..40].to_vec(), &[0, 1, 0])),
        ("over_then_20", af1f(5, &[over, (1, 0, 101, &[0x31, 0x25])])),
        ("over_then_21", p16(2, &[(3, 0, 10, &[1, 2, 3]), (1, 0, 10, &[1, 2])])),
        ("over_then_22", af1f(5, &[over, (1, 0, 10, &[0x31, 0x35])])),
        // 46
        ("16_tail", tail(p16(2, &[(2, 0, 10, &[7, 9])]), &[0])),
        ("af1f_tail", tail(af1f(5, &[full]), &[0, 0])),
        ("over_and_tail", tail(p16(2, &[(3, 0, 10, &[7, 9, 0])]), &[0])),
        ("28", rays()),
        ("28_tail", tail(rays(), &[0])),
        ("clear_16", header(16, 0, 5, 0)),
        ("clear_af1f", header(0xaf1f, 0, 5, 0)),
        ("clear_16_tail", tail(header(16, 0, 5, 0), &[0])),
        ("clear_af1f_tail", tail(header(0xaf1f, 0, 5, 0), &[0, 1, 0, 0, 0, 10, 0x50, 0])),
        ("clear_29", header(16, 0, 5, 0)[..29].to_vec()),
    ] {
        list.sweep(&format!("strict_{name}"), CLOCK, Scheme::Class, class(), body);
    }
    let lent = Lent { azimuths: 0, codes: 0, physical: 0 };
    for (name, scheme, file, body) in [
        ("10_over", Scheme::Legacy(1.0), legacy(), p16(2, &[(3, 0, 10, &[7, 9, 0])])),
        ("10_tail", Scheme::Halfword, halfword(-320, 5, 254), tail(rays(), &[0])),
        ("10", Scheme::Legacy(1.0), legacy(), p16(2, &[(2, 0, 10, &[7, 9])])),
        ("9_tail", Scheme::Halfword, halfword(-320, 0, 254), tail(p16(2, &[(2, 0, 10, &[7, 9])]), &[0])),
        ("9", Scheme::Halfword, halfword(-320, 0, 254), p16(2, &[(2, 0, 10, &[7, 9])])),
        ("3_over", Scheme::Float, float(16.0, 128.0)[..70].to_vec(), af1f(5, &[over])),
        ("36_over", Scheme::Class, class(), af1f(5, &[over])),
        ("36_tail", Scheme::Class, class(), tail(af1f(5, &[full]), &[0])),
        ("36", Scheme::Class, class(), af1f(5, &[full])),
        ("clear_lent_nothing", Scheme::Class, class(), header(16, 0, 5, 0)),
    ] {
        list.add(&format!("strict_before_{name}"), Case::Sweep { clock: CLOCK, scheme, lent, file, body });
    }
    list.0.into_iter().map(|(name, case)| (name, case.strict())).collect()
}

/// The products of the first code and the last, of every scheme, moment and unit; codes that are not known.
pub fn products() -> Vec<(String, Case)> {
    let codes = [19, 30, 56, 78, 99, 159, 161, 163, 165, 170, 176, 177, 178, -177];
    codes.map(|code| (format!("product_{code}"), Case::Product { code })).to_vec()
}

/// The names of the first refusal and the last, the shortest and the longest; numbers of none, and too few places.
pub fn names() -> Vec<(String, Case)> {
    let names = [(1, 32), (15, 33), (32, 32), (46, 40), (0, 32), (47, 32), (u32::MAX, 40), (1, 31)];
    names.map(|(number, places)| (format!("name_{number}_{places}"), Case::Name { number, places })).to_vec()
}

/// Rows of 130 cells, so two blocks of 64 and a rest, of every packet under every scheme that it allows.
fn blocks(list: &mut List) {
    let bytes: Vec<u8> = (0..261).map(|i| (i * 7 % 256) as u8).collect();
    let runs: Vec<u8> = (0..20).map(|i| 0xd0 | i * 3 % 16).collect();
    let levels: Vec<i32> = (0..260).map(|i| i * 501 % 65_536).collect();
    let sixteen = p16(130, &[(131, 0, 10, &bytes[..131]), (130, 10, 10, &bytes[131..])]);
    let coloured = af1f(130, &[(5, 0, 10, &runs[..10]), (5, 10, 10, &runs[10..])]);
    let generic = p28(&[Ray(0.0, 1.0, 130, &levels[..130]), Ray(1.0, 1.0, 130, &levels[130..])]);
    for (name, scheme, file) in bench_files() {
        let bodies = match scheme {
            Scheme::Halfword | Scheme::Float => vec![("16", &sixteen), ("af1f", &coloured)],
            Scheme::Legacy(_) => vec![("af1f", &coloured)],
            Scheme::Precip(_) | Scheme::Class => vec![("16", &sixteen), ("af1f", &coloured), ("28", &generic)],
        };
        for (packet, body) in bodies {
            let lent = Lent { azimuths: 3, codes: 261, physical: 262 };
            let name = format!("blocks_{packet}_{}", name.replace(' ', "_"));
            list.add(&name, Case::Sweep { clock: CLOCK, scheme, lent, file: file.clone(), body: body.clone() });
        }
    }
}

/// The readings below the sweep.
fn smaller(list: &mut List) {
    for (name, text) in [
        ("token_bare", &b"N0BLOT"[..]),
        ("token_blanks", b"\t N0blot \r\n\x0c\r\r\nABCDEF"),
        ("token_vertical_tab", b"\x0bN0BLOT"),
        ("token_second", b"N0BLO\r\r\nN0BLOTX\r\r\nabc123\r\r\nABCDEF"),
        ("token_three_returns", b"abc\r\r\r\nN0BLOT"),
        ("token_inner_blank", b"N0B OT"),
    ] {
        list.add(name, Case::Token { file: text.to_vec() });
    }
    let far = |filler: u8, at: usize, text: &[u8]| [&vec![filler; at][..], text].concat();
    list.add("token_ends_128", Case::Token { file: far(b' ', 122, b"N0BLOT") });
    list.add("token_ends_129", Case::Token { file: far(b' ', 123, b"N0BLOT") });
    list.add("token_cut_to_six", Case::Token { file: far(b' ', 122, b"N0BLOTX") });
    list.add("separator_cut", Case::Token { file: far(b' ', 120, b"N0BLOT\r\r\n") });
    for (name, len, at) in [("header_21", 21, 0), ("header_20", 20, 0), ("header_last", 200, 107), ("header_late", 200, 108)]
    {
        let mut bytes = vec![0; len];
        bytes[at + 1] = 177;
        bytes[at + 18..at + 20].fill(0xff);
        list.add(name, Case::Mhb { file: bytes });
    }
    let eight = [0x80, 1, 0x7f, 2, 0xff, 0xfe, 0, 3];
    for (name, block, index, kind) in [
        ("field_i16", 0, 1, FieldKind::I16),
        ("field_u16", 0, 1, FieldKind::U16),
        ("field_i32", 0, 3, FieldKind::I32),
        ("field_i32_out", 0, 4, FieldKind::I32),
        ("field_pair", 0, 1, FieldKind::Pair),
        ("field_pair_out", 1, 1, FieldKind::Pair),
        ("field_far", 0xffff_ffff, 65_535, FieldKind::U16),
    ] {
        list.add(name, Case::Field { file: eight.to_vec(), block, index, kind });
    }
    list.add("pdb", Case::Pdb { file: class(), block: 27 });
    list.add("pdb_cut", Case::Pdb { file: class(), block: 28 });
    list.add("lin", Case::Lin { file: halfword(-320, 5, 65_535), block: 27 });
    list.add("flt", Case::Flt { file: float(16.0, 128.0), block: 27 });
    list.add("prc", Case::Prc { file: precip(10.0, 1.0, [255, 1, 2]), block: 27, factor: 0.254 });
    list.add("prc_no_ceiling", Case::Prc { file: precip(10.0, 1.0, [255, 1, 9]), block: 27, factor: 0.254 });
    list.add("thr", Case::Thr { file: legacy(), block: 27 });
    list.add("thr_cut", Case::Thr { file: legacy(), block: 28 });
    list.add("leg", Case::Leg { thresholds: std::array::from_fn(|i| 17 * i as u8), post_scale: 0.514444 });
    for (name, bytes) in [
        ("trail_nothing", &b""[..]),
        ("trail_zeros", b"\0\0\0"),
        ("trail_etx", b"\x03\0"),
        ("trail_end", b"\r\r\n\x03\0\0"),
        ("trail_lead", b"\0\x03"),
        ("trail_two", b"\x03\x03"),
        ("trail_long", b"\r\r\n\x03\r\r\n\x03\0"),
    ] {
        list.add(name, Case::Trail { bytes: bytes.to_vec() });
    }
    for code in [19, 94, 177, 0, 18, 171, -1, 32_767] {
        list.add(&format!("known_{code}"), Case::Known { code });
    }
    list.add("codes", Case::Codes);
    for (name, ops, payload) in [
        ("xdr_none", "", vec![]),
        ("xdr_numbers", "iuf", words(&[u32::MAX, u32::MAX, 0x7fa0_0001])),
        ("xdr_cut", "iu", [words(&[3]), vec![1, 2, 3]].concat()),
        ("xdr_string", "su", [words(&[5]), b"a\0b\0\0xyz".to_vec(), words(&[7])].concat()),
        ("xdr_strings", "ss", [words(&[0, 4]), b"abcd".to_vec()].concat()),
        ("xdr_body_cut", "s", [words(&[5]), b"abcd".to_vec()].concat()),
        ("xdr_padding_cut", "s", [words(&[1]), b"ab".to_vec()].concat()),
        ("xdr_string_4096", "s", words(&[4096])),
        ("xdr_array", "ai", words(&[2, u32::MAX, 7, 9])),
        ("xdr_array_cut", "a", words(&[2, 1])),
        ("xdr_array_100000", "a", words(&[100_000])),
        ("xdr_array_100001", "a", words(&[100_001])),
        ("xdr_list", "li", words(&[2, 9, 0, 0, 8, 0, 0, 4])),
        ("xdr_list_cut", "l", words(&[2, 9, 0, 0])),
        ("xdr_list_negative", "l", words(&[u32::MAX, 7])),
        ("xdr_list_no_pointer", "l", words(&[0])),
    ] {
        list.add(name, Case::Xdr { ops: ops.into(), payload });
    }
}

/// The edges, cases made from a seed until each refusal and each packet under each scheme has a few, and what document 02
/// adds; the products and the names last.
pub fn list() -> Vec<(String, Case)> {
    let mut list = edges();
    let mut seen: HashMap<String, usize> = HashMap::new();
    for number in 0..200_000 {
        let rng = &mut Rng::new(20_260, number);
        let case = match number % 8 {
            0 => cases::symbology(rng),
            1 => cases::xdr(rng),
            2 => cases::block(rng),
            3 => cases::accepted(rng),
            _ => cases::sweep(rng),
        };
        if matches!(&case, Case::Sweep { body, .. } | Case::Sym { body } if model::is_clear(body)) {
            continue; // not the Rust's to answer
        }
        let line = case.line("");
        let answer = radish::answer(&case);
        let (group, most) = match (answer.refusal(), &case) {
            (Some(r), Case::Sweep { .. }) => (format!("r{}", r.number), 3),
            (Some(r), _) => (format!("{}_r{}", case.kind(), r.number), 1),
            (None, Case::Sweep { scheme, body, .. }) => {
                let packet = Packet::ALL.map(|p| p.name())[[16, 0x1f, 28].iter().position(|c| *c == body[17]).unwrap()];
                (format!("{packet}_{}", Scheme::NAMES[scheme.index()]).to_lowercase(), 3)
            }
            (None, _) => (case.kind().into(), 3),
        };
        let count = seen.entry(group.clone()).or_default();
        if *count < most && line.len() < 900 && answer.to_string().len() < 900 {
            *count += 1;
            list.push((format!("{group}_{count}"), case));
        }
    }
    list.extend(gaps());
    list.extend(merges());
    list.extend(dates());
    list.extend(plans());
    list.extend(charges());
    list.extend(clear());
    list.extend(exports());
    list.extend(strict());
    list.extend(products());
    list.extend(names());
    list
}

/// What the list lacks, of the refusals and the packets under the schemes.
pub fn missing(list: &[(String, Case)]) -> Vec<String> {
    let mut counts = Counts::default();
    for (_, case) in list {
        counts.count(case, &wanted::answer(case));
    }
    counts.missing()
}
