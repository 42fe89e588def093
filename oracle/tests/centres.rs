//! M-100's centres are the Rust's where these are below 360, else the Rust's less whole circles; packet 28 keeps the Rust's.
use lines::{Answer, Packet};
use oracle::make::{cases, Rng};
use oracle::{program, wanted};

#[test]
fn the_centres_are_the_rusts_wrapped() {
    if !radish::AT_HAND {
        return;
    }
    program::need_rust();
    let mut wrapped = 0;
    for number in 0..20_000 {
        let case = cases::symbology(&mut Rng::new(9, number));
        let (Answer::Picture(rust), Answer::Picture(wanted)) = (radish::answer(&case), wanted::answer(&case)) else {
            continue;
        };
        assert_eq!(rust.azimuths.len(), wanted.azimuths.len());
        for (before, after) in rust.azimuths.iter().zip(&wanted.azimuths) {
            assert!(rust.packet == Packet::P28 || (0.0..360.0).contains(after));
            if rust.packet == Packet::P28 || *before < 360.0 {
                assert!(before.to_bits() == after.to_bits() || before.is_nan() && after.is_nan());
            } else {
                assert_eq!((before * 20.0).round() % 7200.0, (after * 20.0).round());
                wrapped += 1;
            }
        }
    }
    assert!(wrapped > 0);
}
