//! M-105's level count is the Rust's but for its three cases, and nothing else of the answer is another.
use lines::{Answer, Case, Lent, Packet, Scheme};
use oracle::make::{body, file, Rng};
use oracle::{program, wanted};

#[test]
fn the_counts_differ_in_three_cases() {
    if !radish::AT_HAND {
        return;
    }
    program::need_rust();
    let rng = &mut Rng::new(11, 0);
    let scheme = Scheme::Precip(0.254);
    let body = body::of_size(rng, Packet::P28, 1, 1).bytes;
    let lent = Lent { azimuths: 1, codes: 1, physical: 1 };
    let mut seen = [0; 4];
    for flags in
        (0..=10).chain([255, 0xfff0, 0xffff]).flat_map(|l: u16| (0..=9).flat_map(move |a| [0, 1, 8, 9].map(|b| [l, a, b])))
    {
        let mut made = file::file(rng, scheme, 20_000, 3600);
        made.set(22, &16f32.to_be_bytes());
        made.set(24, &128f32.to_be_bytes());
        made.set(27, &flags.map(u16::to_be_bytes).concat());
        let case = Case::Sweep { clock: 1 << 40, scheme, lent, file: made.bytes, body: body.clone() };
        let (Answer::Sweep(mut rust), Answer::Sweep(wanted)) = (radish::answer(&case), wanted::answer(&case)) else {
            panic!()
        };
        let [largest, leading, trailing] = flags.map(u32::from);
        let ceiling = largest.saturating_sub(trailing);
        let (kind, counts) = match flags {
            [0, ..] | [_, 9, _] | [_, _, 9] => (0, [65_534, 65_535]),
            _ if ceiling < leading => (1, [1, 0]),
            [0xffff, 0, 0] => (2, [65_535, 65_536]),
            _ => (3, [ceiling - leading + 1; 2]),
        };
        seen[kind] += 1;
        let levels = |scale: Option<lines::Scale>| scale.unwrap().levels;
        assert_eq!([levels(rust.scale), levels(wanted.scale)], counts, "{flags:?}");
        rust.scale = wanted.scale;
        assert!(rust.same(&wanted), "{flags:?}");
    }
    assert!(!seen.contains(&0));
}
