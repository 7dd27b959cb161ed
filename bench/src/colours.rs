//! A point from a colour, one call each, beside the plain rule in floats.

use crate::clock::{best_of, Contender};
use crate::library;
use crate::measured::{Call, Measured};
use crate::numbers::Numbers;

/// How many colours are made into points in one go.
const COLOURS: usize = 65_535;

/// Colours whose values are all in range.
fn colours(seed: u64) -> Vec<[f32; 3]> {
    let mut numbers = Numbers::new(seed);
    let mut value = || numbers.below(65_536_000) as f32 / 256_000.0 - 128.0;
    let colour = |_| [value(), value(), value()].map(|v| v.clamp(-128.0, 127.99999));
    (0..COLOURS).map(colour).collect()
}

/// The library's points, one call a colour.
fn by_library(colours: &[[f32; 3]], points: &mut [i32]) {
    for (colour, place) in colours.iter().zip(points.chunks_exact_mut(3)) {
        assert_eq!(library::point_from_colour(colour, place).made, 1);
    }
}

/// The same by the standard library's floor, with a range test.
fn by_floor(colours: &[[f32; 3]], points: &mut [i32]) {
    for (colour, place) in colours.iter().zip(points.chunks_exact_mut(3)) {
        if colour.iter().all(|v| (-128.0..128.0).contains(v)) {
            for (number, v) in place.iter_mut().zip(colour) {
                *number = (v * 256.0).floor() as i32;
            }
        }
    }
}

/// Measures both on the same colours. It stops where they do not agree.
pub fn measure(seed: u64, rounds: usize) -> Measured {
    let colours = colours(seed);
    let mut ours = vec![0; 3 * COLOURS];
    let mut theirs = vec![1; 3 * COLOURS];
    by_library(&colours, &mut ours);
    by_floor(&colours, &mut theirs);
    assert!(ours == theirs, "the points of the floor in Rust");
    let contenders = vec![
        Contender::new("points from colours", || by_library(&colours, &mut ours)),
        Contender::new("floor in Rust", || by_floor(&colours, &mut theirs)),
    ];
    Measured {
        call: Call::Colours,
        points: "colours",
        k: 3,
        n: COLOURS,
        asked: None,
        times: best_of(rounds, contenders),
    }
}
