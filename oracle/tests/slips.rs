//! Each slip that the stand-in for the port can make is found.
use oracle::compare::Compare;
use oracle::mirror::{self, SLIPS};
use oracle::program;

#[test]
fn every_slip_is_found() {
    if !radish::AT_HAND {
        return;
    }
    program::need_rust();
    for slip in SLIPS {
        mirror::set_slip(Some(*slip));
        let mut compare = Compare::new(mirror::entries());
        compare.show = 0;
        let found = (0..100_000).any(|number| {
            compare.random(5, number);
            compare.counts.differences > 0
        });
        assert!(found, "{slip:?}");
    }
}
