//! Live bytes, and the numbers that are live by them.

use crate::chance::Chance;
use second::live::{DEAD, LIVE};

/// The live bytes of so many numbers, all live.
pub fn all(n: usize) -> Vec<u8> {
    vec![LIVE; n]
}

/// v: how many of these bytes say live.
pub fn count(live: &[u8]) -> usize {
    live.iter().filter(|byte| **byte == LIVE).count()
}

/// The live bytes of so many numbers: few dead, half of them, few live, none live, or a dead run at either end.
pub fn bytes(chance: &mut Chance, n: usize) -> Vec<u8> {
    let (kind, cut) = (chance.below(6), chance.below(n + 1));
    let mut byte = |number: usize| match kind {
        0 => chance.below(8) > 0,
        1 | 2 => chance.below(2) > 0,
        3 => chance.below(8) == 0,
        4 => number < cut,
        _ => number >= cut && chance.below(20) > 0,
    };
    (0..n).map(|number| u8::from(byte(number))).collect()
}

/// A 32-bit number that may stand for a dead number's coordinate: any at all, one at or beyond the end of the range, or one within.
pub fn dead_coordinate(chance: &mut Chance) -> i32 {
    match chance.below(3) {
        0 => chance.number() as i32,
        1 => chance.one_of(&[i32::MIN, -32_769, -32_768, 32_767, 32_768, i32::MAX]),
        _ => chance.between(-32_768, 32_767) as i32,
    }
}

/// Gives every number that is dead by these bytes any coordinates.
pub fn scatter_dead(chance: &mut Chance, k: usize, points: &mut [i32], live: &[u8]) {
    let dead = points.chunks_mut(k).zip(live);
    for (point, _) in dead.filter(|(_, byte)| **byte == DEAD) {
        point.fill_with(|| dead_coordinate(chance));
    }
}
