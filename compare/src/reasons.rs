//! What an explanation must say of the branches that hold its point, and of the point.

use crate::calls;
use crate::lent::Lent;
use hornherder::raw::{self, Explaining};
use second::reason::{face_box_is_below, face_point_is_below, own_slot};
use second::region::{wholly_above, BranchBox, OPEN};
use second::shelf::{Run, Shelf};
use second::visits::{branch_box, root_box};

/// The shelf of an accepted call.
fn shelf(lent: &Lent) -> Shelf<'_> {
    Shelf {
        k: lent.k,
        points: &lent.points,
        slots: lent.slots(),
    }
}

/// The slot in which the number stands.
pub fn own(lent: &Lent) -> usize {
    own_slot(&shelf(lent), lent.number).expect("a slot for the number")
}

/// The box of the branch whose node stands in this slot.
fn box_of(lent: &Lent, slot: usize) -> BranchBox {
    let shelf = shelf(lent);
    let root = root_box(&shelf).expect("a box");
    branch_box(&shelf, &root, slot)
}

/// The lowest-numbered face that the box of the branch at this slot is wholly below.
pub fn face_of_box(lent: &Lent, slot: usize) -> Option<usize> {
    face_box_is_below(&lent.faces(), &box_of(lent, slot))
}

/// The lowest-numbered face that the number's point is below.
pub fn face_of_point(lent: &Lent) -> Option<usize> {
    face_point_is_below(&lent.faces(), lent.point_of(lent.number))
}

/// The node slots of the branches that hold this slot, from the root down.
fn way(v: usize, slot: usize) -> Vec<usize> {
    let mut run = Run::root(v);
    let mut nodes = vec![run.node()];
    while run.node() != slot {
        run = match slot < run.node() {
            true => run.left(),
            false => run.right(),
        };
        nodes.push(run.node());
    }
    nodes
}

/// The slots of an accepted call that are open, by the second program.
fn open_slots(lent: &Lent) -> Vec<bool> {
    let open = second::open_slots(
        lent.k,
        lent.n,
        lent.h,
        &lent.points,
        &lent.live,
        &lent.order,
        &lent.normals,
        &lent.offsets,
        &lent.marks,
    );
    open.expect("an accepted call")
}

/// Asks of a refusal that its other numbers are 0, and of a done answer that reason, slot, face and margin are as the words say.
pub fn hold(lent: &Lent, answer: Explaining) {
    let Explaining { reason, face, .. } = answer;
    if answer.code != 0 {
        let refused = Explaining {
            code: answer.code,
            ..Explaining::default()
        };
        assert_eq!(answer, refused, "refusal of {lent:?}");
        return;
    }
    let slot = usize::from(answer.slot);
    hold_slot(lent, reason, slot);
    let named = match reason {
        raw::INSIDE_WITH_BRANCH | raw::OUTSIDE_WITH_BRANCH => face_of_box(lent, slot),
        _ => face_of_point(lent),
    };
    match reason {
        raw::INSIDE_WITH_BRANCH | raw::INSIDE_BY_ITSELF => {
            assert_eq!(named, None, "the face of {lent:?}");
            assert_eq!((face, answer.margin), (0, 0), "inside of {lent:?}");
        }
        _ => {
            assert_eq!(named, Some(face.into()), "the face of {lent:?}");
            hold_margin(lent, face.into(), answer.margin);
        }
    }
    if reason == raw::INSIDE_WITH_BRANCH {
        let bx = box_of(lent, slot);
        let all = lent.faces().iter().all(|face| wholly_above(face, &bx));
        assert!(all, "wholly above of {lent:?}");
    }
}

/// Asks that the reason is the number by itself exactly where its own slot is open, which it then names; else the slot is the first on
/// the way from the root to the number's own that is not open.
fn hold_slot(lent: &Lent, reason: u8, slot: usize) {
    let (open, own) = (open_slots(lent), own(lent));
    let by_itself = [raw::INSIDE_BY_ITSELF, raw::OUTSIDE_BY_ITSELF].contains(&reason);
    assert_eq!(by_itself, open[own], "the own slot {own} of {lent:?}");
    let nodes = way(lent.v(), own);
    let settled = nodes.iter().find(|node| !open[**node]);
    let expected = settled.copied().unwrap_or(own);
    assert_eq!(slot, expected, "the slot of {lent:?}");
    assert_eq!(by_itself, settled.is_none(), "the reason of {lent:?}");
}

/// Asks that the margin is the one that the one-point test gives for the number's point and that face alone: below 0, or 0 at an open
/// face.
fn hold_margin(lent: &Lent, face: usize, margin: i64) {
    let alone = lent.with_face_alone(face).with_point(lent.number);
    let placing = calls::place(&alone);
    let told = (placing.inside, placing.measured, placing.margin);
    assert_eq!(told, (0, 1, margin), "the margin of {lent:?}");
    let below = margin < 0 || margin == 0 && lent.marks[face] == OPEN;
    assert!(below, "margin {margin} of {lent:?}");
}
