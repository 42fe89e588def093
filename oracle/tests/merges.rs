//! What the lines of the list were made for, stated by hand: the marks, the refusals, and where two bodies are no different sweeps.
use oracle::{program, sample, wanted};

#[test]
fn the_receptions_merge_as_they_are_said_to() {
    if !radish::AT_HAND {
        return;
    }
    program::need_rust();
    let list = sample::merges();
    for (name, end) in [
        ("af1f_floor_0", "marks=000001"),
        ("28_class", "marks=000001"),
        ("16_class", "codes=00070009000000ff phys=40e00000411000007fc00000437f0000 marks=0000"),
        ("other_codes", "R 44 2"),
        ("other_codes_twice", "R 44 1"),
        ("gap_beside_other_codes", "marks=000000"),
        ("other_runs_same_codes", "marks=000000"),
        ("no_gap", "marks=000000"),
        ("16_unused_bytes", "marks=00"),
        ("16_other_codes", "R 44 0"),
        ("28_other_codes", "R 44 2"),
        ("other_packet", "R 43"),
        ("other_radials", "R 43"),
        ("other_bins", "R 43"),
        ("other_range_scale", "R 43"),
        ("other_centre", "R 43"),
        ("same_centre", "marks=0000"),
        ("other_centre_before_other_codes", "R 43"),
        ("28_zeros", "R 43"),
        ("28_nans", "marks=00"),
        ("first_19", "R 19 1 3"),
        ("second_13", "R 13 0 0"),
        ("second_before_43", "R 20 1 f4121999a"),
        ("clear", "marks=-"),
        ("clear_and_other", "R 43"),
        ("second_10", "R 10"),
        ("first_9", "R 9 f00000000"),
        ("lent_exactly", "marks=000000"),
        ("lent_azimuths", "R 36 azimuths"),
        ("lent_codes", "R 36 codes"),
        ("lent_physical", "R 36 physical"),
        ("lent_marks", "R 36 marks"),
        ("44_before_36", "R 44 2"),
    ] {
        let (_, case) = list.iter().find(|(n, _)| *n == format!("merge_{name}")).expect(name);
        let answer = wanted::answer(case).to_string();
        assert!(answer.ends_with(end), "{name} {answer}");
    }
}
