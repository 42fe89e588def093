//! M-107's clear scans, stated by hand: what the lines of the list were made for. That nothing is written, and that bodies which agree on
//! the bytes that are read are answered alike, is held by `compare`.
use lines::Answer;
use oracle::{model, program, sample, wanted};

#[test]
fn the_clear_scans_are_as_they_are_said_to_be() {
    if !radish::AT_HAND {
        return;
    }
    program::need_rust();
    let list = sample::clear();
    let empty = "az=- codes=- phys=-";
    for (name, end) in [
        ("clear_16_halfword", empty),
        ("clear_16_float", empty),
        ("clear_16_precip", empty),
        ("clear_16_legacy", "R 10"),
        ("clear_16_class", "packet=16 nr=0 nb=5 rs=997 az=- codes=- phys=-"),
        ("clear_af1f_halfword", empty),
        ("clear_af1f_float", empty),
        ("clear_af1f_precip", empty),
        ("clear_af1f_legacy", empty),
        ("clear_af1f_class", "scale=none packet=AF1F nr=0 nb=5 rs=997 az=- codes=- phys=-"),
        ("clear_one_bin", "nr=0 nb=1 rs=997 az=- codes=- phys=-"),
        ("clear_most_bins", "nr=0 nb=65535 rs=997 az=- codes=- phys=-"),
        ("clear_first_bin", "R 17 1"),
        ("clear_first_bin_af1f", empty),
        ("clear_no_bins", "R 15 0 0"),
        ("clear_no_bins_af1f", "R 15 0 0"),
        ("clear_more_bytes", empty),
        ("clear_a_radial_unsaid", empty),
        ("clear_body_29", "R 12 29"),
        ("clear_divider", "R 13 7 1"),
        ("clear_step_0", "R 9 f00000000"),
        ("clear_first_bin_legacy", "R 17 1"),
        ("clear_sym", "A packet=AF1F nr=0 nb=5 rs=997 az=- codes=-"),
        ("clear_lent_nothing", empty),
        ("clear_gaps_lent_nothing", "phys=- marks=-"),
        ("gaps_clear_16", "phys=- marks=-"),
        ("gaps_clear_af1f", "phys=- marks=-"),
        ("gaps_clear_first_bin", "R 17 1"),
        ("clear_plan_lent_nothing", "phys=- totals=-"),
        ("clear_plan_lent_no_totals", "R 36 totals"),
        ("plan_clear_fields", "phys=- totals=0,0"),
        ("plan_clear_strip", "R 39 10"),
        ("plan_clear_second_strip", "R 39 5"),
        ("plan_clear_strip_repeated", "R 38 16"),
        ("plan_clear_strip_cut", "R 37 16"),
        ("plan_clear_class", "R 10"),
    ] {
        let (_, case) = list.iter().find(|(n, _)| *n == name).expect(name);
        let answer = wanted::answer(case).to_string();
        assert!(answer.ends_with(end), "{name} {answer}");
    }
}

/// The Rust refuses each with 15, but for what it refuses before.
#[test]
fn the_rust_calls_them_empty() {
    if !radish::AT_HAND {
        return;
    }
    program::need_rust();
    let mut seen = 0;
    for (name, case) in sample::clear() {
        let (lines::Case::Sweep { body, .. } | lines::Case::Sym { body }) = &case else { continue };
        if model::is_clear(body) {
            let Answer::Refused(refusal) = radish::answer(&case) else { panic!("{name}") };
            assert!(refusal.number == 15 || wanted::answer(&case).refusal().is_some_and(|r| r.same(&refusal)), "{name}");
            seen += 1;
        }
    }
    assert!(seen > 15);
}
