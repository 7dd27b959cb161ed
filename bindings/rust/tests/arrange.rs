//! Arranging: any first contents become the tree, one that is it already is left alone, and a borrowed order is taken as it is.

use hornherder::{raw, Refusal, Region, Shelf};

const A: [i32; 12] = [1, 5, 4, 2, 4, 8, 7, 1, 6, 6, 2, 2];
const A_ORDER: [u32; 6] = [1, 5, 0, 2, 3, 4];
const ALL: [u8; 6] = [1; 6];

/// The six points with another order, which holds a place behind the last slot too.
fn arranged(first: &[u32]) -> (Vec<u32>, bool) {
    let order = [first, &[70]].concat();
    let (shelf, already) = Shelf::with_order(2, &A[..], &ALL[..], order).unwrap();
    (shelf.order().to_vec(), already)
}

/// Any first contents become the tree, and the answer says whether they were it.
#[test]
fn any_first_contents() {
    assert_eq!(arranged(&A_ORDER), (A_ORDER.to_vec(), true));
    for first in [[0; 6], [u32::MAX; 6], [0, 1, 2, 3, 4, 5]] {
        assert_eq!(arranged(&first), (A_ORDER.to_vec(), false));
    }
    for slot in 0..6 {
        for other in (0..slot).chain(slot + 1..6) {
            let mut swapped = A_ORDER;
            swapped.swap(slot, other);
            assert_eq!(arranged(&swapped), (A_ORDER.to_vec(), false));
            let mut twice = A_ORDER;
            twice[slot] = twice[other];
            assert_eq!(arranged(&twice), (A_ORDER.to_vec(), false));
        }
    }
}

/// The call itself: the places from v on stay as they were, a refused call writes nothing, and every refusal has already 0.
#[test]
fn raw_call() {
    let mut order = [80; 8];
    let answer = raw::arrange(2, 6, &A, &ALL, &mut order);
    assert_eq!((answer.code, answer.already), (0, 0));
    assert_eq!(order, [1, 5, 0, 2, 3, 4, 80, 80]);
    let answer = raw::arrange(2, 6, &A, &ALL, &mut order);
    assert_eq!((answer.code, answer.already), (0, 1));
    let (mut wide, two) = (A, [1, 1, 1, 1, 1, 2]);
    wide[11] = 32_768;
    for (k, n, points, live, places, code) in [
        (0, 6, &A[..], &ALL[..], 6, 1),
        (2, 65_536, &A, &ALL, 6, 2),
        (2, 6, &A[..11], &two, 5, 3),
        (2, 6, &wide, &two, 5, 15),
        (2, 6, &wide, &ALL, 5, 4),
        (2, 6, &wide, &ALL, 6, 5),
    ] {
        let answer = raw::arrange(k, n, points, live, &mut order[..places]);
        assert_eq!((answer.code, answer.already), (code, 0));
        assert_eq!(order, [1, 5, 0, 2, 3, 4, 80, 80]);
    }
}

/// With no live number any order is the tree already, and one of no places too.
#[test]
fn none_live() {
    for order in [vec![], vec![7, 7]] {
        let (shelf, already) = Shelf::with_order(2, &A[..], vec![0; 6], order).unwrap();
        assert!(already && shelf.is_empty());
    }
}

/// A borrowed order is taken as it is, and refused by every call that needs the tree, until it is arranged; what was lent stays.
#[test]
fn borrowed_order() {
    let wrong = [5, 1, 0, 2, 3, 4];
    let mut shelf = Shelf::with_borrowed_order(2, &A[..], &ALL[..], &wrong).unwrap();
    assert_eq!(shelf.order(), wrong);
    let everywhere = Region::everywhere(2).unwrap();
    let mut buffer = [80; 6];
    let refused = Refusal::NotTheTree;
    assert_eq!(shelf.list(&everywhere, &mut buffer), Err(refused));
    assert_eq!(shelf.list_all([&everywhere], &mut buffer), Err(refused));
    assert_eq!(shelf.screen(&everywhere), Err(refused));
    assert_eq!(shelf.explain(&everywhere, 0), Err(refused));
    assert_eq!(buffer, [80; 6]);
    assert_eq!(shelf.arrange(), Ok(false));
    assert_eq!(shelf.order(), A_ORDER);
    assert!(shelf.list(&everywhere, &mut buffer).is_ok());
    assert_eq!(wrong, [5, 1, 0, 2, 3, 4]);
}

/// Of a shelf with a borrowed order nothing is tested before a call: each refuses what is wrong, in the order of its tests, and so does
/// arranging it.
#[test]
fn wrong_beside_a_borrowed_order() {
    let everywhere = Region::everywhere(2).unwrap();
    for (k, points, live, order, refusal) in [
        (0, &A[..], &ALL[..], &A_ORDER[..], Refusal::Dimension),
        (usize::MAX, &A, &ALL, &A_ORDER, Refusal::Dimension),
        (2, &A[..11], &ALL, &A_ORDER, Refusal::PointsLength),
        (2, &A, &ALL[..5], &A_ORDER, Refusal::LiveBytes),
        (2, &A, &[1, 1, 1, 1, 1, 7], &A_ORDER, Refusal::LiveBytes),
        (2, &A, &ALL, &A_ORDER[..5], Refusal::ShortBuffer),
        (2, &[32_768, 0], &[1], &[0], Refusal::CoordinateRange),
    ] {
        let mut shelf = Shelf::with_borrowed_order(k, points, live, order).unwrap();
        assert!(shelf.order().len() <= order.len());
        assert!((0..7).all(|number| shelf.point(number).is_none_or(|point| point.len() == k)));
        assert_eq!(shelf.screen(&everywhere), Err(refusal));
        assert_eq!(shelf.arrange(), Err(refusal));
    }
}
