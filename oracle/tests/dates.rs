//! M-102's dates, stated by hand, and its rule of the first day of each month.
use lines::Case;
use oracle::{model, wanted};

#[test]
fn the_dates_are_those_of_the_calendar() {
    for (days, date) in [
        (0, "R 4 0 0"),
        (1, "A 1970 1 1"),
        (31, "A 1970 1 31"),
        (32, "A 1970 2 1"),
        (59, "A 1970 2 28"),
        (60, "A 1970 3 1"),
        (365, "A 1970 12 31"),
        (366, "A 1971 1 1"),
        (790, "A 1972 2 29"),
        (791, "A 1972 3 1"),
        (11_017, "A 2000 2 29"),
        (11_018, "A 2000 3 1"),
        (20_000, "A 2024 10 3"),
        (47_541, "A 2100 2 28"),
        (47_542, "A 2100 3 1"),
        (65_530, "A 2149 5 31"),
        (65_531, "A 2149 6 1"),
        (65_535, "A 2149 6 5"),
    ] {
        assert_eq!(wanted::answer(&Case::Date { days }).to_string(), date, "{days}");
    }
}

#[test]
fn each_month_begins_where_the_one_before_ends() {
    let dates = (1..=65_535).map(|days| (days, model::date(days).unwrap()));
    let firsts: Vec<_> = dates.filter(|(_, date)| date.day == 1).collect();
    assert_eq!((firsts.len(), firsts[0].0, firsts[2153].0), (2154, 1, 65_531));
    for pair in firsts.windows(2) {
        let [(from, before), (to, after)] = pair else { unreachable!() };
        assert_eq!(to - from, model::month_length(before.year, before.month));
        let months = [before, after].map(|date| 12 * u32::from(date.year) + u32::from(date.month));
        assert_eq!(months[0] + 1, months[1]);
    }
}
