//! What the lines of the list were made for, stated by hand.
use oracle::{sample, wanted};

#[test]
fn the_charges_are_as_they_are_said_to_be() {
    let list = sample::charges();
    for (name, answer) in [
        ("nothing", "A 0 0"),
        ("one_band", "A 1 999"),
        // 10 × 99 three times: 2,970, and not three times 0
        ("rounded_once", "A 2 970"),
        ("end_of_band", "A 3 0"),
        ("into_next_band", "A 3 50"),
        ("first_end_0", "A 7 0"),
        ("rate_0", "A 8 0"),
        // 1 × 1 + 1 × 20 + 2 × 300 + 4 × 4,000 + 8 × 50,000 + 16 × 6,000 + 8 × 700
        ("eight_bands", "A 518 221"),
        // 2^56 - 2^40 = 72,056,494,526,300,160
        ("top", "A 72056494526300 160"),
        ("top_in_last_band", "A 65 535"),
        // 5 × 1 + (2^40 - 5) × 2
        ("bands_past_top", "A 2199023255 547"),
        ("no_bands", "R 40"),
        ("nine_bands", "R 40"),
        ("rate_missing", "R 40"),
        ("end_missing", "R 40"),
        ("equal_ends", "R 40"),
        ("equal_last_ends", "R 40"),
        ("ends_descend", "R 40"),
        ("last_end_low", "R 40"),
        ("last_end_below_first", "R 40"),
        ("rate_65535", "A 65535 0"),
        ("rate_65536", "R 40"),
        ("rate_most", "R 40"),
        ("above_top", "R 41"),
        ("most", "R 41"),
        ("malformed_and_above", "R 40"),
    ] {
        let (_, case) = list.iter().find(|(n, _)| *n == format!("charge_{name}")).expect(name);
        assert_eq!(wanted::answer(case).to_string(), answer, "{name}");
    }
}
