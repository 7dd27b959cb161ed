//! The numbers inside and outside a region, and the list buffer.

use crate::region::{inside, Face};
use crate::shelf::Shelf;

/// The numbers inside and the numbers outside, both in slot order, each point
/// tested by itself.
pub fn inside_and_outside(shelf: &Shelf, faces: &[Face]) -> (Vec<u32>, Vec<u32>) {
    let slots = 0..shelf.slots.len();
    let (within, without): (Vec<usize>, Vec<usize>) =
        slots.partition(|&slot| inside(faces, shelf.point_at(slot)));
    let numbers = |slots: Vec<usize>| slots.into_iter().map(|slot| shelf.slots[slot]).collect();
    (numbers(within), numbers(without))
}

/// Places 0 to v-1 of the list buffer: inside numbers from the front, outside
/// numbers from the last place backwards.
pub fn places(inside: &[u32], outside: &[u32]) -> Vec<u32> {
    let backwards = outside.iter().rev();
    inside.iter().chain(backwards).copied().collect()
}
