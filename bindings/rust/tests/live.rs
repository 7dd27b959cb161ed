//! Pictures that come and go: shelves with dead numbers, taking and withdrawing.

use hornherder::{raw, Margin, Reason, Refusal, Region, Shelf, MAX_POINTS};
use std::borrow::Cow;

const A: [i32; 12] = [1, 5, 4, 2, 4, 8, 7, 1, 6, 6, 2, 2];

/// The region of the README's example.
fn two_faces() -> Region {
    Region::new(2, vec![1, 1, -1, 0], vec![7, -6]).unwrap()
}

/// These points, arranged, of which those with a live byte of 1 are live.
fn arranged<'s>(
    k: usize,
    points: impl Into<Cow<'s, [i32]>>,
    live: impl Into<Cow<'s, [u8]>>,
) -> Result<Shelf<'s>, Refusal> {
    let live = live.into();
    let order = vec![u32::MAX; live.len()];
    Ok(Shelf::with_order(k, points, live, order)?.0)
}

/// The README's six points without numbers 2 and 5, whose coordinates are no colours.
fn without_two() -> Shelf<'static> {
    let points = vec![1, 5, 4, 2, i32::MAX, i32::MIN, 7, 1, 6, 6, 32_768, -32_769];
    arranged(2, points, vec![1, 1, 0, 1, 1, 0]).unwrap()
}

/// A shelf with dead numbers knows which of its numbers are live, how many, and their points.
#[test]
fn live_numbers() {
    let shelf = without_two();
    assert_eq!((shelf.k(), shelf.numbers(), shelf.len()), (2, 6, 4));
    assert!(!shelf.is_empty());
    assert_eq!(shelf.live(), [1, 1, 0, 1, 1, 0]);
    assert_eq!(shelf.order(), [1, 0, 4, 3]);
    assert_eq!(shelf.point(4), Some(&[6, 6][..]));
    for number in [2, 5, 6, u32::MAX] {
        assert_eq!(shelf.point(number), None);
    }
    let all = Shelf::new(2, &A[..]).unwrap();
    assert_eq!((all.numbers(), all.len(), all.live()), (6, 6, &[1; 6][..]));
}

/// Every call goes by the live points, and a buffer needs a place for each of them alone.
#[test]
fn calls() {
    let (shelf, region) = (without_two(), two_faces());
    let mut buffer = [80; 5];
    let listing = shelf.list(&region, &mut buffer).unwrap();
    assert_eq!(listing.inside(), [4]);
    assert!(listing.outside().eq([1, 0, 3]));
    assert_eq!(buffer, [4, 3, 0, 1, 80]);
    let short = shelf.list(&region, &mut buffer[..3]);
    assert_eq!(short, Err(Refusal::ShortBuffer));
    assert_eq!(shelf.screen(&region).unwrap().found(), Some(4));
    let margin = Margin {
        face: 1,
        amount: -1,
    };
    let reason = Reason::OutsideByItself { slot: 3, margin };
    assert_eq!(shelf.explain(&region, 3), Ok(reason));
    let everywhere = Region::everywhere(2).unwrap();
    let mut buffer = [80; 9];
    let listings = shelf.list_all([&everywhere, &region], &mut buffer).unwrap();
    assert_eq!(listings[0].inside(), shelf.order());
    assert_eq!(listings[1].inside(), [4]);
    assert_eq!(buffer, [1, 0, 4, 3, 4, 3, 0, 1, 80]);
}

/// Two shelves are the same whatever the coordinates of their dead numbers, and not where a live number, a point or a slot differs.
#[test]
fn same_shelves() {
    let shelf = without_two();
    let mut points = A.to_vec();
    let same = arranged(2, &points[..], vec![1, 1, 0, 1, 1, 0]).unwrap();
    assert_eq!(same, shelf);
    let others = arranged(2, &points[..], vec![1, 0, 1, 1, 1, 0]).unwrap();
    assert_ne!(others, shelf);
    let mut changed = shelf.clone();
    changed.withdraw(3).unwrap();
    assert_ne!(changed, shelf);
    points[0] = 0;
    let moved = arranged(2, points, vec![1, 1, 0, 1, 1, 0]).unwrap();
    assert_eq!(moved.order(), shelf.order());
    assert_ne!(moved, shelf);
}

/// A shelf fills up from its lowest free number and is emptied again; after each step it is arranged as a shelf made of what it holds.
#[test]
fn from_empty_to_full_and_back() {
    for k in 1..=4 {
        let mut shelf = Shelf::with_room(k, 20).unwrap();
        let same = |shelf: &mut Shelf| {
            shelf.arrange().unwrap();
            assert_eq!(shelf.arrange(), Ok(true));
            let made = arranged(k, shelf.points(), shelf.live()).unwrap();
            assert_eq!(*shelf, made);
        };
        for number in 0..20 {
            let point: Vec<i32> = (0..k).map(|s| (number * 7 + s as i32 * 5) % 11).collect();
            assert_eq!(shelf.take(&point), Ok(number as u32));
            assert_eq!(shelf.len(), number as usize + 1);
            assert_eq!(shelf.point(number as u32), Some(&point[..]));
            same(&mut shelf);
        }
        assert_eq!(shelf.take(&vec![0; k]), Err(Refusal::NoneDead));
        for step in 0..20 {
            shelf.withdraw(step * 7 % 20).unwrap();
            assert_eq!(shelf.len(), 19 - step as usize);
            same(&mut shelf);
        }
        assert!(shelf.is_empty() && shelf.order().is_empty());
    }
}

/// Numbers that were freed are taken before those that never were used, the lowest first.
#[test]
fn freed_first() {
    let mut shelf = Shelf::with_room(1, 5).unwrap();
    for number in 0..4 {
        assert_eq!(shelf.take(&[number]), Ok(number as u32));
    }
    shelf.withdraw(2).unwrap();
    shelf.withdraw(0).unwrap();
    let taken: Vec<_> = (10..14).map(|x| shelf.take(&[x])).collect();
    let full = Err(Refusal::NoneDead);
    assert_eq!(taken, [Ok(0), Ok(2), Ok(4), full]);
    assert_eq!(shelf.points(), [10, 1, 11, 3, 12]);
}

/// The order is left alone. A call that needs the tree is refused unless it is one still, and accepted once it is arranged.
#[test]
fn order_left_alone() {
    let everywhere = Region::everywhere(1).unwrap();
    let mut shelf = Shelf::new(1, vec![0, 10, 20]).unwrap();
    shelf.withdraw(0).unwrap();
    assert_eq!(shelf.order(), [0, 1]);
    assert_eq!(shelf.screen(&everywhere), Err(Refusal::NotTheTree));
    let refused = shelf.explain(&everywhere, 0);
    assert_eq!(refused, Err(Refusal::NotTheTree));
    assert_eq!(shelf.take(&[0]), Ok(0));
    assert_eq!(shelf.order(), [0, 1, 2]);
    assert_eq!(shelf.screen(&everywhere).unwrap().found(), Some(0));
    shelf.withdraw(2).unwrap();
    assert_eq!(shelf.screen(&everywhere).unwrap().found(), Some(0));
    shelf.withdraw(0).unwrap();
    let mut buffer = [0; 3];
    let refused = shelf.list(&everywhere, &mut buffer);
    assert_eq!(refused, Err(Refusal::NotTheTree));
    let refused = shelf.list_all([&everywhere], &mut buffer);
    assert_eq!(refused, Err(Refusal::NotTheTree));
    shelf.arrange().unwrap();
    let listing = shelf.list(&everywhere, &mut buffer).unwrap();
    assert_eq!(listing.inside(), [1]);
}

/// An order that has no place for a newcomer's number gets one, which holds no number yet.
#[test]
fn short_order() {
    let given = Shelf::with_order(1, vec![0, 10], vec![1, 0], vec![0]);
    let (mut shelf, already) = given.unwrap();
    assert!(already);
    assert_eq!(shelf.take(&[5]), Ok(1));
    let everywhere = Region::everywhere(1).unwrap();
    assert_eq!(shelf.screen(&everywhere), Err(Refusal::NotTheTree));
    shelf.arrange().unwrap();
    assert_eq!(shelf.order(), [0, 1]);
}

/// What a shelf borrows stays as it is where the shelf is changed.
#[test]
fn borrowed() {
    let (points, live, order) = ([0, 10, 20], [1, 0, 1], [0, 2]);
    let given = Shelf::with_borrowed_order(1, &points[..], &live[..], &order);
    let mut shelf = given.unwrap();
    assert_eq!(shelf.arrange(), Ok(true));
    assert_eq!(shelf.take(&[-5]), Ok(1));
    shelf.withdraw(2).unwrap();
    assert_eq!(shelf.arrange(), Ok(false));
    assert_eq!(shelf.order(), [1, 0]);
    assert_eq!((points, live, order), ([0, 10, 20], [1, 0, 1], [0, 2]));
}

/// Refused takes and withdrawals change nothing.
#[test]
fn refused_changes() {
    let mut shelf = without_two();
    let before = (shelf.points().to_vec(), shelf.live().to_vec());
    assert_eq!(shelf.take(&[1]), Err(Refusal::PointsLength));
    assert_eq!(shelf.take(&[1, 2, 3]), Err(Refusal::PointsLength));
    assert_eq!(shelf.take(&[1, 32_768]), Err(Refusal::CoordinateRange));
    assert_eq!(shelf.take(&[-32_769, 1]), Err(Refusal::CoordinateRange));
    for number in [2, 5, 6, 65_536, u32::MAX] {
        assert_eq!(shelf.withdraw(number), Err(Refusal::NotLive));
        let refused = shelf.explain(&two_faces(), number);
        assert_eq!(refused, Err(Refusal::NotLive));
    }
    assert_eq!(
        (shelf.points(), shelf.live()),
        (&before.0[..], &before.1[..])
    );
    assert_eq!(shelf, without_two());
}

/// Making a shelf meets 15 for bytes that are not as many as numbers, or not 0 or 1, before its order or coordinates are looked at.
#[test]
fn refused_bytes() {
    for live in [&[][..], &[1], &[1, 1, 1], &[1, 2], &[255, 0]] {
        let refused = Shelf::with_order(1, vec![0, 32_768], live, vec![]);
        assert_eq!(refused, Err(Refusal::LiveBytes), "{live:?}");
    }
    let refused = arranged(1, vec![0, 32_768], vec![1, 1]);
    assert_eq!(refused, Err(Refusal::CoordinateRange));
    assert!(arranged(1, vec![0, 32_768], vec![1, 0]).is_ok());
}

/// Room is made for as many numbers as there may be, and refused beyond.
#[test]
fn room() {
    assert_eq!(Shelf::with_room(0, 5), Err(Refusal::Dimension));
    assert_eq!(Shelf::with_room(usize::MAX, 5), Err(Refusal::Dimension));
    for numbers in [MAX_POINTS + 1, usize::MAX] {
        let refused = Shelf::with_room(4, numbers);
        assert_eq!(refused, Err(Refusal::TooManyPoints));
    }
    let full = Shelf::with_room(4, MAX_POINTS).unwrap();
    assert_eq!((full.numbers(), full.len()), (MAX_POINTS, 0));
    let none = Shelf::with_room(1, 0).unwrap().take(&[0]);
    assert_eq!(none, Err(Refusal::NoneDead));
}

/// In each call 15 is tested after 3 and before 14 and 4; 17 comes last; and a refused call writes nothing.
#[test]
fn in_order() {
    let (wrong, short) = ([1, 2], [0; 0]);
    let (mut lists, mut counts) = ([70; 2], [71; 3]);
    #[rustfmt::skip]
    let mut regions = |points: &[i32], live: &[u8]| {
        raw::list_regions(1, 2, 0, points, live, &short, &[], &[], &[], &[], &mut lists, &mut counts)
    };
    assert_eq!(regions(&[0], &wrong), 3);
    assert_eq!(regions(&[0, 1], &wrong), 15);
    assert_eq!(regions(&[0, 1], &[1, 0]), 14);
    assert_eq!((lists, counts), ([70; 2], [71; 3]));
    let arrange = |live: &[u8]| raw::arrange(1, 2, &[0, 1], live, &mut []).code;
    assert_eq!((arrange(&wrong), arrange(&[1, 0])), (15, 4));
    let explain = |order: &[u32]| {
        let answer = raw::explain(1, 2, 0, 1, &[0, 1], &[1, 0], order, &[], &[], &[]);
        answer.code
    };
    assert_eq!((explain(&[]), explain(&[1]), explain(&[0])), (4, 9, 17));
    let (mut points, mut live) = ([0, 32_768], [1, 1]);
    let answer = raw::take(1, 2, &mut points, &mut live, &[0]);
    assert_eq!((answer.code, answer.number), (5, 0));
    points[1] = 1;
    assert_eq!(raw::take(1, 2, &mut points, &mut live, &[0]).code, 16);
    assert_eq!(raw::withdraw(3, 7, &mut live), 15);
    assert_eq!(raw::withdraw(65_536, 7, &mut live), 2);
    assert_eq!(raw::withdraw(2, 7, &mut live), 17);
    assert_eq!((points, live), ([0, 1], [1, 1]));
}
