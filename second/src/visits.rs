//! The visits of a region: the open branches of the shelf, slot by slot.

use crate::region::{open, BranchBox, Face};
use crate::shelf::{point, Run, Shelf};

/// The root box: the least and greatest coordinate over all live points, which
/// are those in the slots, in each dimension. There is none for the empty shelf.
pub fn root_box(shelf: &Shelf) -> Option<BranchBox> {
    box_of_numbers(shelf, shelf.slots)
}

/// The least and greatest coordinate over the points of these numbers, in each
/// dimension. There is no such box for no numbers.
pub fn box_of_numbers(shelf: &Shelf, numbers: &[u32]) -> Option<BranchBox> {
    let k = shelf.k;
    let coordinate = |number: u32, s: usize| point(k, shelf.points, number)[s];
    let on = |s: usize| numbers.iter().map(move |&number| coordinate(number, s));
    Some(BranchBox {
        least: (0..k).map(|s| on(s).min()).collect::<Option<_>>()?,
        greatest: (0..k).map(|s| on(s).max()).collect::<Option<_>>()?,
    })
}

/// The box of the branch whose node is in this slot, from the root box down
/// through all its ancestors.
pub fn branch_box(shelf: &Shelf, root: &BranchBox, slot: usize) -> BranchBox {
    let mut run = Run::root(shelf.slots.len());
    let mut bx = root.clone();
    while slot != run.node() {
        let s = run.depth % shelf.k;
        let coordinate = shelf.point_at(run.node())[s];
        if slot < run.node() {
            bx.greatest[s] = coordinate;
            run = run.left();
        } else {
            bx.least[s] = coordinate;
            run = run.right();
        }
    }
    bx
}

/// For each slot, whether the branch whose node it holds is open.
pub fn open_slots(shelf: &Shelf, faces: &[Face]) -> Vec<bool> {
    match root_box(shelf) {
        None => Vec::new(),
        Some(root) => (0..shelf.slots.len())
            .map(|slot| open(faces, &branch_box(shelf, &root, slot)))
            .collect(),
    }
}

/// The visits of a region: how many slots are open.
pub fn visits(shelf: &Shelf, faces: &[Face]) -> u32 {
    let open = open_slots(shelf, faces);
    open.into_iter().filter(|&is_open| is_open).count() as u32
}

/// The visits of one face taken as a region alone.
pub fn visits_of_face(shelf: &Shelf, face: &Face) -> u32 {
    visits(shelf, std::slice::from_ref(face))
}
