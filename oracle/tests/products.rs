//! What the lines of the list were made for, stated by hand, and that the table has the known codes, every moment and every unit.
use lines::{Answer, Case, MOMENTS, UNITS};
use oracle::{model, sample, wanted};

#[test]
fn the_products_are_as_they_are_said_to_be() {
    if !radish::AT_HAND {
        return;
    }
    let list = sample::products();
    for (code, answer) in [
        (19, "A scheme=L:3f800000 moment=DBZH unit=dBZ gate=1000 elevation=1"),
        // 0.514444: a knot in m/s
        (30, "A scheme=L:3f03b29a moment=WRADH unit=m/s gate=1000 elevation=1"),
        (56, "A scheme=L:3f03b29a moment=SRMV unit=m/s gate=1000 elevation=1"),
        // 25.4: an inch in mm
        (78, "A scheme=L:41cb3333 moment=ACCUM unit=mm gate=- elevation=0"),
        (99, "A scheme=H moment=VRADH unit=m/s gate=250 elevation=1"),
        (159, "A scheme=F moment=ZDR unit=dB gate=250 elevation=1"),
        (161, "A scheme=F moment=RHOHV unit=ratio gate=250 elevation=1"),
        (163, "A scheme=F moment=KDP unit=deg/km gate=250 elevation=1"),
        (165, "A scheme=C moment=HCLASS unit=class gate=250 elevation=1"),
        // 0.01 * 25.4, rounded twice
        (170, "A scheme=P:3e820c49 moment=ACCUM unit=mm gate=- elevation=0"),
        (176, "A scheme=P:41cb3333 moment=RATE unit=mm/h gate=- elevation=0"),
        (177, "A scheme=C moment=HCLASS unit=class gate=250 elevation=0"),
        (178, "A unknown"),
        (-177, "A unknown"),
    ] {
        let (_, case) = list.iter().find(|(n, _)| *n == format!("product_{code}")).expect("a line");
        assert_eq!(wanted::answer(case).to_string(), answer, "{code}");
    }
}

#[test]
fn the_table_has_the_known_codes() {
    if !radish::AT_HAND {
        return;
    }
    let (mut moments, mut units) = (vec![], vec![]);
    for code in i16::MIN..=i16::MAX {
        let Answer::Product(product) = wanted::answer(&Case::Product { code }) else { unreachable!() };
        assert_eq!(product.is_some(), model::CODES.iter().any(|known| i32::from(*known) == code.into()), "{code}");
        moments.extend(product.map(|p| p.moment));
        units.extend(product.map(|p| p.unit));
    }
    assert!(MOMENTS.iter().all(|m| moments.contains(m)) && UNITS.iter().all(|u| units.contains(u)));
}

#[test]
fn the_names_are_those_of_the_table() {
    let list = sample::names();
    for (name, answer) in [
        ("1_32", "A NoAwipsToken"),
        ("15_33", "A EmptySweep"),
        ("32_32", "A XdrRadialDataLengthMismatch"),
        ("46_40", "A SurplusAfterRadials"),
        ("0_32", "R 101"),
        ("47_32", "R 101"),
        ("4294967295_40", "R 101"),
        ("1_31", "R 101"),
    ] {
        let (_, case) = list.iter().find(|(n, _)| *n == format!("name_{name}")).expect(name);
        assert_eq!(wanted::answer(case).to_string(), answer, "{name}");
    }
}
