//! M-109's exports, stated by hand: what the lines of the list were made for. That what is written is read as the original is held by
//! `compare`, and here that the Rust reads it so.
use lines::{Answer, Case, Lent, Packet, Scheme};
use oracle::make::{body, Rng};
use oracle::{model, program, sample, wanted};

/// The header of an export: its length, the length less 16, bins, and radials; bytes 22-25 and the range scale are the list's.
fn header(length: u32, bins: u16, radials: u16) -> String {
    let less = length - 16;
    format!("A {length} ffff0001{length:08x}0001ffff{less:08x}00100000{bins:04x}03e703e603e5{radials:04x}")
}

#[test]
fn the_exports_are_as_they_are_said_to_be() {
    if !radish::AT_HAND {
        return;
    }
    program::need_rust();
    let list = sample::exports();
    // 1 1 1 5 5 at 359.9, then a run of one 15 after a zero run, and four of 13
    let odd = header(54, 5, 2) + "00060e0f000a010101050500" + "0006000900640f0d0d0d0d00";
    let even = header(50, 4, 2) + "000400000001030707" + "0f" + "0004ffff000a01010102";
    let row = header(42, 5, 1) + "00060000000a010101050500";
    for (name, answer) in [
        ("odd", odd.as_str()),
        ("even", &even),
        ("one_bin", &(header(38, 1, 1) + "00020000000a0f00")),
        ("surplus", &row),
        ("over_after_row", &row),
        ("after_the_radials", &even),
        ("clear", &header(30, 5, 0)),
        ("clear_65534", &header(30, 65_534, 0)),
        ("clear_more_bytes", &header(30, 1, 0)),
        ("body_0", "R 12 0"),
        ("body_17", "R 12 17"),
        ("body_17_code_16", "R 12 17"),
        ("divider", "R 13 7 1"),
        ("divider_code_16", "R 13 7 1"),
        ("block_id", "R 13 -1 2"),
        ("code_16", "R 14 16"),
        ("code_16_cut", "R 14 16"),
        ("code_16_clear", "R 14 16"),
        ("code_28", "R 14 28"),
        ("code_28_cut", "R 14 28"),
        ("code_signed", "R 14 -20704"),
        ("code_17", "R 14 17"),
        ("body_18", "R 12 18"),
        ("body_29", "R 12 29"),
        ("no_bins", "R 15 3 0"),
        ("clear_no_bins", "R 15 0 0"),
        ("cells_over", "R 16 2000 2001 4002000 4000000"),
        ("cells_2000", "R 19 0 2000"),
        ("first_bin", "R 17 1"),
        ("first_bin_most", "R 17 65535"),
        ("clear_first_bin", "R 17 256"),
        ("first_bin_long", "R 17 1"),
        ("long", "R 42"),
        ("long_61", "R 42"),
        ("long_62", "R 16 62 65535 4063170 4000000"),
        ("long_65534", "R 19 0 61"),
        ("clear_long", "R 42"),
        ("long_lent_nothing", "R 42"),
        ("no_six_bytes", "R 19 1 2"),
        ("width_0", "R 20 0 f00000000"),
        ("width_101", "R 20 1 f4121999a"),
        ("count_past_end", "R 21 1 2 5"),
        ("no_row", "R 22 1 3 5"),
        ("no_row_lent_nothing", "R 22 1 3 5"),
        ("lent_exactly", &odd),
        ("lent_one_short", "R 36 output"),
        ("lent_nothing", "R 36 output"),
        ("even_lent_exactly", &even),
        ("even_lent_one_short", "R 36 output"),
        ("clear_lent_exactly", &header(30, 5, 0)),
        ("clear_lent_one_short", "R 36 output"),
    ] {
        let (_, case) = list.iter().find(|(n, _)| *n == format!("export_{name}")).expect(name);
        assert_eq!(wanted::answer(case).to_string(), answer, "{name}");
    }
    for name in ["blocks", "blocks_odd"] {
        let (_, case) = list.iter().find(|(n, _)| *n == format!("export_{name}")).expect(name);
        assert!(matches!(wanted::answer(case), Answer::Written(bytes) if bytes.len() == 302), "{name}");
    }
}

/// Over 4,096 bytes a line has their CRC-32; that of nine digits again and again was worked out elsewhere.
#[test]
fn a_long_export_is_its_crc() {
    assert_eq!(Answer::Written(vec![7; 4096]).to_string(), format!("A 4096 {}", "07".repeat(4096)));
    assert_eq!(Answer::Written(b"123456789".repeat(456)).to_string(), "A 4104 crc:7250f416");
}

/// The Rust, without the model's centres: the codes and centres of the original, the values too, and nothing after the last radial.
#[test]
fn the_rust_reads_what_is_written() {
    if !radish::AT_HAND {
        return;
    }
    program::need_rust();
    for number in 0..2000 {
        let rng = &mut Rng::new(13, number);
        let mut made = body::good(rng, Packet::Af1f);
        made.set16(18, 0);
        let out = model::export::length(made.radials, made.bins);
        let body = made.bytes.clone();
        let Answer::Written(written) = wanted::answer(&Case::Export { out, body: body.clone() }) else { panic!() };
        let (scheme, file) = (Scheme::Class, sample::bench_files().pop().unwrap().2);
        let sweep = |body: &[u8]| {
            let case = Case::Sweep { clock: 1 << 40, scheme, lent: Lent::MOST, file: file.clone(), body: body.to_vec() };
            radish::answer(&case)
        };
        let (Answer::Sweep(mut original), Answer::Sweep(again)) = (sweep(&body), sweep(&written)) else { panic!() };
        original.picture.packet = Packet::P16;
        assert!(original.same(&again));
        assert_eq!(model::layout(&written).unread.pop(), Some(out..out));
        assert!(matches!(sweep(&written[..out - 1]), Answer::Refused(_)));
    }
}
