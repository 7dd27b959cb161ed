//! Shelves, regions and listings, as people use them.

use hornherder::{raw, Region, Shelf};
use std::thread;

const A: [i32; 12] = [1, 5, 4, 2, 4, 8, 7, 1, 6, 6, 2, 2];
const A_ORDER: [u32; 6] = [1, 5, 0, 2, 3, 4];

/// The region of the README's example.
fn two_faces() -> Region {
    Region::new(2, vec![1, 1, -1, 0], vec![7, -6]).unwrap()
}

/// A shelf knows its points and its order, whether it owns them or borrows them.
#[test]
fn owned_and_borrowed() {
    let owned = Shelf::new(2, A.to_vec()).unwrap();
    let borrowed = Shelf::new(2, &A[..]).unwrap();
    assert_eq!(owned, borrowed);
    assert_eq!((owned.k(), owned.len()), (2, 6));
    assert_eq!(owned.points(), A);
    assert_eq!(owned.order(), A_ORDER);
    assert_eq!(owned.point(5), Some(&[2, 2][..]));
    assert_eq!(owned.point(6), None);
}

/// An order that was arranged before is taken as it is; what stands behind its last slot is cut off.
#[test]
fn existing_order() {
    let mut longer = A_ORDER.to_vec();
    longer.extend([99, 99]);
    let borrowed = Shelf::with_borrowed_order(2, &A[..], vec![1; 6], &longer).unwrap();
    assert_eq!(borrowed.order(), A_ORDER);
    let (owned, already) = Shelf::with_order(2, &A[..], vec![1; 6], longer.clone()).unwrap();
    assert!(already);
    assert_eq!(owned, borrowed);
    assert_eq!(owned, Shelf::new(2, &A[..]).unwrap());
}

/// Both lists come in shelf order, and the outside one can be run from either end.
#[test]
fn both_lists() {
    let shelf = Shelf::new(2, &A[..]).unwrap();
    let mut buffer = [80; 8];
    let listing = shelf.list(&two_faces(), &mut buffer).unwrap();
    assert_eq!(listing.inside(), [2, 4]);
    let mut outside = listing.outside();
    assert_eq!(outside.len(), 4);
    assert_eq!((outside.next(), outside.next_back()), (Some(1), Some(3)));
    assert_eq!(outside.collect::<Vec<_>>(), [5, 0]);
    assert_eq!(listing.visits(), 5);
    assert_eq!(buffer, [2, 4, 3, 0, 5, 1, 80, 80]);
}

/// One buffer serves many listings.
#[test]
fn buffer_used_again() {
    let shelf = Shelf::new(2, &A[..]).unwrap();
    let mut buffer = vec![0; shelf.len()];
    for (offset, inside) in [(1, 6), (8, 0), (5, 2)] {
        let region = Region::everywhere(2).unwrap();
        let region = region.with_face(&[1, 0], offset).unwrap();
        let listing = shelf.list(&region, &mut buffer).unwrap();
        assert_eq!(listing.inside().len(), inside);
        assert_eq!(listing.outside().len(), 6 - inside);
    }
}

/// A screening has the first number inside, or none, and the visits up to it.
#[test]
fn first_inside() {
    let shelf = Shelf::new(2, &A[..]).unwrap();
    let screening = shelf.screen(&two_faces()).unwrap();
    assert_eq!((screening.found(), screening.visits()), (Some(2), 3));
    for (offset, found, visits) in [(1, Some(1), 0), (5, Some(3), 2), (8, None, 0)] {
        let region = Region::everywhere(2).unwrap();
        let region = region.with_face(&[1, 0], offset).unwrap();
        let screening = shelf.screen(&region).unwrap();
        assert_eq!((screening.found(), screening.visits()), (found, visits));
    }
}

/// Number 0 found is not the same as none, and none may have cost visits.
#[test]
fn number_0_or_none() {
    let shelf = Shelf::new(1, vec![0, 10]).unwrap();
    for (least, greatest, found, visits) in
        [(-1, 5, Some(0), 1), (4, 6, None, 2), (11, 12, None, 0)]
    {
        let region = Region::new(1, vec![1, -1], vec![least, -greatest]).unwrap();
        let screening = shelf.screen(&region).unwrap();
        assert_eq!((screening.found(), screening.visits()), (found, visits));
    }
}

/// The empty shelf lists nothing, and asks for no buffer.
#[test]
fn empty_shelf() {
    for k in 1..=4 {
        let shelf = Shelf::new(k, Vec::new()).unwrap();
        assert!(shelf.is_empty());
        let region = Region::everywhere(k).unwrap();
        let listing = shelf.list(&region, &mut []).unwrap();
        assert!(listing.inside().is_empty());
        assert_eq!((listing.outside().len(), listing.visits()), (0, 0));
        let screening = shelf.screen(&region).unwrap();
        assert_eq!((screening.found(), screening.visits()), (None, 0));
    }
}

/// A region knows its faces, and a point is inside it exactly where the list says so.
#[test]
fn faces_and_points() {
    let region = two_faces();
    assert_eq!((region.k(), region.h()), (2, 2));
    let faces: Vec<_> = region.faces().collect();
    assert_eq!(faces, [(&[1, 1][..], 7), (&[-1, 0][..], -6)]);
    assert_eq!(region.marks(), [0, 0]);
    let inside = |point| region.contains(point).unwrap();
    let held: Vec<_> = A.chunks(2).map(inside).collect();
    assert_eq!(held, [false, false, true, false, true, false]);
}

/// A point on an open face is outside, for all three calls; a point beside the face is as before.
#[test]
fn on_an_open_face() {
    let shelf = Shelf::new(2, &A[..]).unwrap();
    let everywhere = || Region::everywhere(2).unwrap();
    let half = everywhere().with_face(&[1, 1], 7).unwrap();
    let open = half.clone().with_open_face(&[-1, 0], -6).unwrap();
    assert_eq!(open.marks(), [0, 1]);
    assert_ne!(open, two_faces());
    assert_eq!(two_faces().contains(&[6, 6]), Ok(true));
    assert_eq!(open.contains(&[6, 6]), Ok(false));
    assert_eq!(open.contains(&[5, 6]), Ok(true));
    let mut buffer = [0; 6];
    let listing = shelf.list(&open, &mut buffer).unwrap();
    assert_eq!(listing.inside(), [2]);
    assert!(listing.outside().eq([1, 5, 0, 3, 4]));
    let only_4 = everywhere().with_face(&[1, 0], 6).unwrap();
    let only_4 = only_4.with_face(&[0, 1], 6).unwrap();
    assert_eq!(shelf.screen(&only_4).unwrap().found(), Some(4));
    let none = only_4.with_open_face(&[1, 0], 6).unwrap();
    assert_eq!(shelf.screen(&none).unwrap().found(), None);
}

/// A box whose corner lies on an open face is not above it: a shelf that a closed face settles at once is
/// open to the same face marked open.
#[test]
fn corner_on_an_open_face() {
    let shelf = Shelf::new(1, vec![5, 6, 7]).unwrap();
    let mut buffer = [0; 3];
    let from_5 = Region::new(1, vec![1], vec![5]).unwrap();
    assert_eq!(shelf.list(&from_5, &mut buffer).unwrap().visits(), 0);
    let above_5 = Region::with_marks(1, vec![1], vec![5], vec![1]).unwrap();
    let listing = shelf.list(&above_5, &mut buffer).unwrap();
    assert_eq!(listing.inside(), [1, 2]);
    assert_eq!(listing.visits(), 2);
    let above_7 = Region::with_marks(1, vec![1], vec![7], vec![1]).unwrap();
    let listing = shelf.list(&above_7, &mut buffer).unwrap();
    assert_eq!((listing.inside().len(), listing.visits()), (0, 0));
}

/// Two bins side by side along a face, closed in the one and open in the other, hold every point once.
#[test]
fn side_by_side() {
    let shelf = Shelf::new(2, &A[..]).unwrap();
    let (mut some, mut others) = ([0; 6], [0; 6]);
    for offset in -1..16 {
        let closed = Region::everywhere(2).unwrap().with_face(&[1, 1], offset);
        let open = Region::everywhere(2).unwrap();
        let open = open.with_open_face(&[-1, -1], -offset);
        let one = shelf.list(&closed.unwrap(), &mut some).unwrap();
        let other = shelf.list(&open.unwrap(), &mut others).unwrap();
        assert!(one.outside().eq(other.inside().iter().copied()));
        assert!(other.outside().eq(one.inside().iter().copied()));
    }
}

/// Many threads at once get the same answer.
#[test]
fn many_threads() {
    let points: Vec<i32> = (0..3000).map(|i| i * 7919 % 65_536 - 32_768).collect();
    let shelf = Shelf::new(3, &points[..]).unwrap();
    let region = Region::new(3, vec![1, 2, 3], vec![100]).unwrap();
    let work = || {
        let mut buffer = vec![0; shelf.len()];
        let listing = shelf.list(&region, &mut buffer).unwrap();
        let mut order = shelf.order().to_vec();
        let answer = raw::arrange(3, 1000, &points, shelf.live(), &mut order);
        assert_eq!((answer.code, answer.already), (0, 1));
        assert_eq!(
            shelf.screen(&region).unwrap().found(),
            listing.inside().first().copied()
        );
        (listing.visits(), listing.inside().to_vec())
    };
    let first = work();
    thread::scope(|scope| {
        let others: Vec<_> = (0..8).map(|_| scope.spawn(work)).collect();
        for other in others {
            assert_eq!(other.join().unwrap(), first);
        }
    });
}
