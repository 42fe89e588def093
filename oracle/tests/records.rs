//! M-110's whole numbers, of bytes that are written out here, and the floats beside them are the Rust's.
use lines::{Answer, Case};
use oracle::{model, program};

/// A block of 21 fields at place 3 of a file.
fn file(latitude: [u8; 4], longitude: [u8; 4], feet: [u8; 2], tenths: [u8; 2]) -> Vec<u8> {
    let mut file = vec![0xff; 3 + 42];
    file[5..9].copy_from_slice(&latitude);
    file[9..13].copy_from_slice(&longitude);
    file[13..15].copy_from_slice(&feet);
    file[43..45].copy_from_slice(&tenths);
    file
}

fn files() -> [(Vec<u8>, [i64; 4]); 4] {
    [
        (file([0, 0, 0xa2, 0x84], [0xff, 0xfe, 0xa7, 0xeb], [2, 0x97], [0, 5]), [41_604, -88_085, 663, 5]),
        (file([0; 4], [0xff; 4], [0xff; 2], [0xff; 2]), [0, -1, -1, -1]),
        (file([0x80, 0, 0, 0], [0x7f, 0xff, 0xff, 0xff], [0x80, 0], [0x7f, 0xff]), [-(1 << 31), (1 << 31) - 1, -32_768, 32_767]),
        (file([0xff, 0xff, 0xff, 0xfb], [0, 0, 0, 5], [0x7f, 0xff], [0x80, 0]), [-5, 5, 32_767, -32_768]),
    ]
}

#[test]
fn they_stand_in_the_block() {
    for (file, whole) in files() {
        assert_eq!(model::raw_fields(&file, 3), Some(whole));
        for len in 0..file.len() {
            assert_eq!(model::raw_fields(&file[..len], 3), None);
        }
    }
}

#[test]
fn the_floats_are_the_operations() {
    if !radish::AT_HAND {
        return;
    }
    program::need_rust();
    for (file, whole) in files() {
        let Answer::Fields(f) = radish::answer(&Case::Pdb { file, block: 3 }) else { panic!() };
        let floats = [f.latitude, f.longitude, f.height, f.elevation];
        assert_eq!(model::floats_of(whole).map(f64::to_bits), floats.map(f64::to_bits));
    }
}
