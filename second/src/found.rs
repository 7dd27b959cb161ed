//! What a screen finds, and the visits up to the found slot.

use crate::lists::inside_and_outside;
use crate::region::Face;
use crate::shelf::Shelf;
use crate::visits::open_slots;

/// The found number: "the first entry of the full inside list". There is none
/// where the inside count is zero.
pub fn found_number(shelf: &Shelf, faces: &[Face]) -> Option<u32> {
    let (within, _) = inside_and_outside(shelf, faces);
    within.first().copied()
}

/// The found slot: the one that holds the found number.
pub fn found_slot(shelf: &Shelf, faces: &[Face]) -> Option<usize> {
    let number = found_number(shelf, faces)?;
    shelf.slots.iter().position(|&held| held == number)
}

/// The visits of a screen: the open slots "among those up to and including the
/// found slot, or all open slots where none is found".
pub fn visits_of_screen(shelf: &Shelf, faces: &[Face]) -> u32 {
    let open = open_slots(shelf, faces);
    let counted = match found_slot(shelf, faces) {
        Some(slot) => &open[..=slot],
        None => &open[..],
    };
    counted.iter().filter(|&&is_open| is_open).count() as u32
}
