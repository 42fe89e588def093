//! The Rust against itself through the port's boundary: nothing differs, every refusal and every packet under every scheme
//! occurs, and a case survives its line.
use lines::{Case, Lent};
use oracle::compare::Compare;
use oracle::make::{cases, Rng};
use oracle::port::Port;
use oracle::{mirror, program, wanted};

#[test]
fn the_rust_agrees_with_itself() {
    if !radish::AT_HAND {
        return;
    }
    program::need_rust();
    let mut compare = Compare::new(mirror::entries());
    compare.fixed(7);
    for number in 0..20_000 {
        compare.random(7, number);
    }
    assert_eq!(compare.counts.differences, 0);
    assert_eq!(compare.counts.missing(), Vec::<String>::new());
    assert!(!compare.counts.plan_laws.contains(&0) && !compare.counts.charge_laws.contains(&0));
    assert!(compare.counts.clear_alike > 0 && !compare.counts.merge_laws.contains(&0));
    assert!(!compare.counts.export_laws.contains(&0));
}

#[test]
fn a_case_survives_its_line() {
    for number in 0..2000 {
        let rng = &mut Rng::new(3, number);
        for case in [
            cases::sweep(rng),
            cases::gaps(rng),
            cases::merge(rng),
            cases::plan(rng),
            cases::clear(rng),
            cases::field(rng),
            cases::block(rng),
            cases::xdr(rng),
            cases::each(rng),
            cases::read(rng),
            cases::scan_time(rng),
            cases::date(rng),
            cases::product(rng),
            cases::name(rng),
            cases::charge(rng),
            cases::export(rng).0,
        ] {
            let line = case.line("name");
            let (name, again) = Case::parse(&line).unwrap();
            assert_eq!((name.as_str(), again.line("name")), ("name", line));
        }
    }
}

#[test]
fn a_line_lends_no_more_than_a_sweep_has() {
    if !radish::AT_HAND {
        return;
    }
    program::need_rust();
    let mut port = Port::new(mirror::entries());
    for number in 0..200 {
        let Case::Sweep { clock, scheme, file, body, .. } = cases::accepted(&mut Rng::new(9, number)) else {
            unreachable!()
        };
        let lent = Lent { azimuths: usize::MAX, codes: 1 << 40, physical: usize::MAX };
        let case = Case::Sweep { clock, scheme, lent, file, body };
        let Case::Sweep { body, .. } = &case else { unreachable!() };
        let export = Case::Export { out: usize::MAX, body: body.clone() };
        let gaps = case.clone().with_marks(usize::MAX);
        let merge = gaps.clone().with_second(body.clone());
        let with_plan = case.clone().with_plan(usize::MAX, vec![1, 0, 2, 0, 7]);
        for case in [case, gaps, merge, with_plan, export] {
            let outcome = port.run(&case, Lent::MOST);
            assert!(wanted::answer(&case).same(&outcome.answer) && outcome.fault.is_none());
        }
    }
}
