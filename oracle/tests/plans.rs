//! What the lines of the list were made for, stated by hand: the totals, and the refusals in their order. The pictures are held by
//! `compare`, not here.
use oracle::{program, sample, wanted};

#[test]
fn the_totals_and_refusals_are_as_they_are_said_to_be() {
    if !radish::AT_HAND {
        return;
    }
    program::need_rust();
    let list = sample::plans();
    for (name, end) in [
        // floor 2, ceiling 249; field 9: 10 × (0 + 1 + 247) + 7 × 98; field 3: 65,535 × (0 + 1) + 1 × 1
        ("16", "totals=3166,65536"),
        // colours 3 7 7 15 and 1 1 1 2: 10 × (1 + 5 + 5 + 13) + 7 × 0; 65,535 × (5 + 5) + 1 × 5
        ("af1f", "totals=240,655355"),
        ("28", "totals=3166,65536"),
        ("empty", "totals=-"),
        ("field_alone", "totals=0,0"),
        ("cut_in_two", "totals=3166,65536"),
        ("moved", "totals=3166,65536"),
        // 3 became 13: 10 × 10 more, and 10 × 65,536 more
        ("code_moved", "totals=3266,720896"),
        // floor 1: 10 × (0 + 1 + 2 + 248) + 7 × 99; 65,535 × (1 + 2) + 1 × 2
        ("no_ceiling", "totals=3203,196607"),
        ("ceiling_low", "totals=0,0"),
        ("most", "totals=8589672450"),
        ("cut_tag", "R 37 54"),
        ("cut_strip", "R 37 54"),
        ("tag_0", "R 37 54"),
        ("field_length", "R 37 54"),
        ("length_turned", "R 37 54"),
        ("strip_first", "R 37 0"),
        ("no_gates", "R 37 54"),
        ("repeated", "R 38 59"),
        ("radial_outside", "R 39 54"),
        ("gate_outside", "R 39 54"),
        ("count_outside", "R 39 54"),
        ("sum_past_16_bits", "R 39 54"),
        ("repeated_then_cut", "R 37 59"),
        ("repeated_then_no_gates", "R 37 59"),
        ("outside_then_repeated", "R 38 65"),
        ("outside_then_tag_3", "R 37 70"),
        ("halfword", "R 10"),
        ("halfword_step_0", "R 10"),
        ("float_scale_0", "R 7 f00000000"),
        ("legacy", "R 10"),
        ("class", "R 10"),
        ("class_no_row", "R 22 0 3 5"),
        ("precip_no_row", "R 22 0 3 5"),
        ("lent_exactly", "totals=3166,65536"),
        ("lent_totals", "R 36 totals"),
        ("lent_no_totals", "totals=-"),
        ("lent_physical", "R 36 physical"),
        ("lent_totals_cut", "R 37 54"),
        ("lent_totals_repeated", "R 38 54"),
        ("lent_totals_outside", "R 39 54"),
        ("lent_nothing_class", "R 10"),
    ] {
        let (_, case) = list.iter().find(|(n, _)| *n == format!("plan_{name}")).expect(name);
        let answer = wanted::answer(case).to_string();
        assert!(answer.ends_with(end), "{name} {answer}");
    }
}
