//! Why a point is inside or outside: with a whole branch, or by its own test.

use crate::region::{below, distance_number, inside, settled, wholly_below};
use crate::region::{BranchBox, Face};
use crate::shelf::{branches, point, Run, Shelf};
use crate::visits::{branch_box, root_box};

/// The reason "inside, settled with a whole branch".
pub const INSIDE_WITH_BRANCH: u8 = 1;

/// The reason "inside by its own test".
pub const INSIDE_BY_TEST: u8 = 2;

/// The reason "outside, settled with a whole branch below a face".
pub const OUTSIDE_WITH_BRANCH: u8 = 3;

/// The reason "outside by its own test".
pub const OUTSIDE_BY_TEST: u8 = 4;

/// Why a point is inside or outside: the reason, the slot that goes with it, and
/// the face, which is there only for outside.
#[derive(Clone, Copy, Debug, PartialEq, Eq)]
pub struct Why {
    pub reason: u8,
    pub slot: usize,
    pub face: Option<usize>,
}

/// The number's own slot: the one that holds it.
pub fn own_slot(shelf: &Shelf, number: u32) -> Option<usize> {
    shelf.slots.iter().position(|&held| held == number)
}

/// Whether the branch holds what is in this slot; its node is held too.
pub fn holds(branch: &Run, slot: usize) -> bool {
    (branch.start..branch.start + branch.length).contains(&slot)
}

/// "The settled branch nearest the root that holds the picture" in this slot, and
/// its box. Of all branches that hold it and are settled the least deep is taken.
pub fn settled_branch(shelf: &Shelf, faces: &[Face], slot: usize) -> Option<(Run, BranchBox)> {
    let root = root_box(shelf)?;
    let holding = branches(shelf.slots.len())
        .into_iter()
        .filter(|branch| holds(branch, slot));
    let boxed = holding.map(|branch| (branch, branch_box(shelf, &root, branch.node())));
    let all_settled = boxed.filter(|(_, bx)| settled(faces, bx));
    all_settled.min_by_key(|(branch, _)| branch.depth)
}

/// The lowest-numbered face that the box is wholly below.
pub fn face_box_is_below(faces: &[Face], bx: &BranchBox) -> Option<usize> {
    faces.iter().position(|face| wholly_below(face, bx))
}

/// The lowest-numbered face that the point is below.
pub fn face_point_is_below(faces: &[Face], x: &[i32]) -> Option<usize> {
    faces.iter().position(|face| below(face, x))
}

/// Why the point of this number is inside or outside. There is no answer where no
/// slot holds the number.
pub fn why(shelf: &Shelf, faces: &[Face], number: u32) -> Option<Why> {
    let slot = own_slot(shelf, number)?;
    match settled_branch(shelf, faces, slot) {
        Some((branch, bx)) => Some(with_branch(faces, &branch, &bx)),
        None => Some(by_test(faces, slot, shelf.point_at(slot))),
    }
}

/// The answer with a whole branch, which is settled: it is outside if its box is
/// wholly below a face, and otherwise inside.
fn with_branch(faces: &[Face], branch: &Run, bx: &BranchBox) -> Why {
    let face = face_box_is_below(faces, bx);
    let reason = match face {
        None => INSIDE_WITH_BRANCH,
        Some(_) => OUTSIDE_WITH_BRANCH,
    };
    let slot = branch.node();
    Why { reason, slot, face }
}

/// The answer by the point's own test, at the point's own slot.
fn by_test(faces: &[Face], slot: usize, x: &[i32]) -> Why {
    let face = face_point_is_below(faces, x);
    let reason = match inside(faces, x) {
        true => INSIDE_BY_TEST,
        false => OUTSIDE_BY_TEST,
    };
    Why { reason, slot, face }
}

/// The distance number of the point of this number from the named face, for both
/// kinds of outside. There is none where no face is named.
pub fn margin_to_face(shelf: &Shelf, faces: &[Face], number: u32, why: &Why) -> Option<i128> {
    let face = &faces[why.face?];
    let x = point(shelf.k, shelf.points, number);
    Some(distance_number(face, x))
}
