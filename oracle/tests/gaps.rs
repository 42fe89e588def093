//! What the lines of the list were made for, stated by hand: the marks, and the refusals that stand where a gap was before them. The
//! values of a gap and of its neighbours are held by `compare`, not here.
use oracle::{program, sample, wanted};

#[test]
fn the_gaps_are_where_they_are_said_to_be() {
    if !radish::AT_HAND {
        return;
    }
    program::need_rust();
    let list = sample::gaps();
    for (name, end) in [
        ("af1f_floor_0", "marks=000100"),
        ("af1f_legacy", "marks=000100"),
        ("28_floor_0", "marks=010000"),
        ("16_class", "codes=00070009000000ff phys=40e00000411000007fc00000437f0000 marks=0000"),
        ("af1f_none", "marks=000000"),
        ("af1f_all", "marks=010101"),
        ("28_none", "marks=000000"),
        ("28_all", "marks=010101"),
        ("af1f_then_19", "R 19 1 2"),
        ("af1f_then_20", "R 20 1 f4121999a"),
        ("af1f_then_21", "R 21 1 1 5"),
        ("28_then_31", "R 31 1 2 1"),
        ("28_then_32", "R 32 1 2 1"),
        ("28_then_28", "R 28 2"),
        ("28_then_35", "R 35 1"),
        ("28_then_10", "R 10"),
        ("af1f_then_9", "R 9 f00000000"),
        ("lent_exactly", "marks=000100"),
        ("lent_azimuths", "R 36 azimuths"),
        ("lent_codes", "R 36 codes"),
        ("lent_physical", "R 36 physical"),
        ("lent_marks", "R 36 marks"),
    ] {
        let (_, case) = list.iter().find(|(n, _)| *n == format!("gaps_{name}")).expect(name);
        let answer = wanted::answer(case).to_string();
        assert!(answer.ends_with(end), "{name} {answer}");
    }
}
