//! Tight boxes: the box of each slot's own branch, the summary that keeps them,
//! and the visits that go by them.

use crate::region::{open, BranchBox, Face};
use crate::shelf::{branches, Run, Shelf};
use crate::visits::box_of_numbers;

/// The tight box of a branch: "the least and greatest coordinate of its own
/// branch's live points". There is none for a branch of no slots.
pub fn tight_box(shelf: &Shelf, branch: &Run) -> Option<BranchBox> {
    let end = branch.start + branch.length;
    box_of_numbers(shelf, &shelf.slots[branch.start..end])
}

/// The tight box of the branch of each slot, in slot order.
pub fn tight_boxes(shelf: &Shelf) -> Vec<BranchBox> {
    let branches = branches(shelf.slots.len()).into_iter();
    let tight = |branch: Run| tight_box(shelf, &branch).expect("a branch holds its node");
    branches.map(tight).collect()
}

/// The true summary: "2k numbers, the k least first, slot after slot".
pub fn summary(shelf: &Shelf) -> Vec<i32> {
    let numbers = |bx: BranchBox| [bx.least, bx.greatest].concat();
    tight_boxes(shelf).into_iter().flat_map(numbers).collect()
}

/// For each slot, whether its tight box is open.
pub fn open_tight_slots(shelf: &Shelf, faces: &[Face]) -> Vec<bool> {
    let boxes = tight_boxes(shelf).into_iter();
    boxes.map(|bx| open(faces, &bx)).collect()
}

/// The visits of a region by tight boxes: how many slots have theirs open.
pub fn tight_visits(shelf: &Shelf, faces: &[Face]) -> u32 {
    let open = open_tight_slots(shelf, faces);
    open.into_iter().filter(|&is_open| is_open).count() as u32
}
