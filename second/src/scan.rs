//! The face tests of a plain scan: each live point against the faces in turn.

use crate::reason::face_point_is_below;
use crate::region::Face;
use crate::shelf::Shelf;

/// The face tests made for one point, which "stops at the first face it is below",
/// that test counted. A point below none is tested against all.
pub fn tests_of_point(faces: &[Face], x: &[i32]) -> usize {
    match face_point_is_below(faces, x) {
        Some(face) => face + 1,
        None => faces.len(),
    }
}

/// The tests of a scan: those of every live point added up.
pub fn tests(shelf: &Shelf, faces: &[Face]) -> u32 {
    let slots = 0..shelf.slots.len();
    let each = slots.map(|slot| tests_of_point(faces, shelf.point_at(slot)) as u32);
    each.sum()
}
