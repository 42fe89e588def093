//! M-112's archive profile, stated by hand: what the lines of the list were made for. That it gives the ordinary answer where it accepts
//! is held by `compare`.
use lines::{Answer, Case};
use oracle::{program, sample, wanted};

#[test]
fn the_profile_answers_as_it_is_said_to() {
    if !radish::AT_HAND {
        return;
    }
    program::need_rust();
    let list = sample::strict();
    let mut stated = 0;
    for (name, answer) in [
        ("16_even", "A"),
        ("16_even_more", "R 45 0"),
        ("16_odd", "A"),
        ("16_odd_more", "A"),
        ("16_odd_more_any", "A"),
        ("16_odd_two_more", "R 45 0"),
        ("16_odd_mixed", "A"),
        ("16_one_bin_more", "A"),
        ("16_lowest", "R 45 1"),
        ("af1f", "A"),
        ("af1f_zero_after_row", "A"),
        ("af1f_zero_in_row", "A"),
        ("af1f_run_after_row", "R 45 0"),
        ("af1f_pad_not_zero", "R 45 0"),
        ("af1f_lowest", "R 45 1"),
        ("over_then_19", "R 19 1 2"),
        ("over_then_20", "R 20 1 f4121999a"),
        ("over_then_21", "R 21 1 1 2"),
        ("over_then_22", "R 22 1 3 5"),
        ("16_tail", "R 46"),
        ("af1f_tail", "R 46"),
        ("over_and_tail", "R 45 0"),
        ("28", "A"),
        ("28_tail", "R 46"),
        ("clear_16", "A"),
        ("clear_af1f", "A"),
        ("clear_16_tail", "R 46"),
        ("clear_af1f_tail", "R 46"),
        ("clear_29", "R 12 29"),
        ("before_10_over", "R 45 0"),
        ("before_10_tail", "R 46"),
        ("before_10", "R 10"),
        ("before_9_tail", "R 46"),
        ("before_9", "R 9 f00000000"),
        ("before_3_over", "R 3 22"),
        ("before_36_over", "R 45 0"),
        ("before_36_tail", "R 46"),
        ("before_36", "R 36 azimuths"),
        ("before_clear_lent_nothing", "A"),
    ] {
        let (_, case) = list.iter().find(|(n, _)| *n == format!("strict_{name}")).expect(name);
        let given = wanted::answer(case);
        match answer {
            // the ordinary answer
            "A" => {
                let ordinary = wanted::answer(&case.clone().ordinary());
                assert!(matches!(ordinary, Answer::Sweep(_)) && ordinary.same(&given), "{name} {given}");
            }
            _ => assert_eq!(given.to_string(), answer, "{name}"),
        }
        stated += 1;
    }
    assert_eq!(stated, list.len());
    assert!(list.iter().all(|(_, case)| matches!(case, Case::Strict { .. })));
}
