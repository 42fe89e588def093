//! M-108's whole numbers: the number of 32 bits, what is found wrong, and more steps and minima than `compare` has, by the model's f32.
use lines::Scheme;
use oracle::model::physical_values;
use oracle::model::tenths::{block, greatest_distance, number, CODES};

fn values(m: i16, i: i16) -> Vec<f32> {
    let value = physical_values(&block(m, i), 0, Scheme::Halfword);
    CODES.map(value).collect()
}

#[test]
fn bits_denote_numbers() {
    for (bits, times) in [
        (0, Some(0)),
        (0x8000_0000, Some(0)),
        (0x3f80_0000, Some(1 << 60)),
        (0xbf80_0000, Some(-1 << 60)),
        (0xc020_0000, Some(-5 << 59)),
        (0x3dcc_cccd, Some(13_421_773 << 33)),
        (0x2180_0000, Some(1)),
        (0x2100_0000, None),
        (0x2180_0001, None),
        (1, None),
        (0x7f7f_ffff, None),
        (0x7f80_0000, None),
        (0x7fc0_0000, None),
    ] {
        assert_eq!(number(bits), times, "{bits:08x}");
    }
    // of a whole number, and of one that the f64 of the same value has
    for n in -40_000i32..40_000 {
        assert_eq!(number((n as f32).to_bits()), Some(i128::from(n) << 60));
        let tenth = n as f32 / 10.0;
        assert_eq!(number(tenth.to_bits()), Some((f64::from(tenth) * (1u64 << 60) as f64) as i128));
    }
}

#[test]
fn what_is_wrong_is_found() {
    let good = values(-320, 5);
    assert!(greatest_distance(-320, 5, &good).is_ok());
    for code in 0..good.len() {
        let change = |to: f32| {
            let mut values = good.clone();
            values[code] = to;
            greatest_distance(-320, 5, &values)
        };
        assert!(change(good[code] + 0.125).is_ok());
        assert!(change(good[code] - 0.125).is_ok());
        assert!(change(good[code] + 0.12501).is_err());
        assert!(change(good[code] - 0.12501).is_err());
        assert!(change(f32::NAN).is_err());
        assert!(change(f32::INFINITY).is_err());
    }
    // a tenth apart two values can be near and yet in the wrong order
    let mut values = values(0, 1);
    values.swap(100, 101);
    assert!(greatest_distance(0, 1, &values).is_err());
    values[101] = values[100];
    assert!(greatest_distance(0, 1, &values).is_err());
    assert!(greatest_distance(-320, 5, &good[1..]).is_err());
}

#[test]
fn every_step_for_minima_of_every_size() {
    let sizes = (0..15).flat_map(|bit| [1i16 << bit, -(1 << bit)]);
    let minima: Vec<i16> = sizes.chain([0, 3, 999, -999, -320, -32_767, i16::MAX, i16::MIN]).collect();
    let distances = minima.iter().flat_map(|m| (1..=i16::MAX).map(|i| greatest_distance(*m, i, &values(*m, i))));
    let greatest = distances.collect::<Result<Vec<_>, _>>().unwrap().into_iter().max().unwrap();
    println!("{} minima: at most {:.6}", minima.len(), greatest as f64 / (80u128 << 60) as f64);
}

#[test]
fn every_minimum_for_small_steps() {
    for i in [1, 2, 3, 5, 10] {
        let distances = (i16::MIN..=i16::MAX).map(|m| greatest_distance(m, i, &values(m, i)));
        let greatest = distances.collect::<Result<Vec<_>, _>>().unwrap().into_iter().max().unwrap();
        println!("step {i}: at most {:.6}", greatest as f64 / (80u128 << 60) as f64);
    }
}
