//! Why a point is inside a region or outside.

use hornherder::{raw, Margin, Reason, Region, Shelf, MAX_MARGIN, MAX_OFFSET};

const A: [i32; 12] = [1, 5, 4, 2, 4, 8, 7, 1, 6, 6, 2, 2];

/// The numbers of those six points in shelf order.
const A_ORDER: [u32; 6] = [1, 5, 0, 2, 3, 4];

/// Inside, with the whole branch at this slot.
fn in_with(slot: usize) -> Reason {
    Reason::InsideWithBranch { slot }
}

/// Inside by its own test, at this slot.
fn in_itself(slot: usize) -> Reason {
    Reason::InsideByItself { slot }
}

/// Outside, with the whole branch at this slot, by a face and the margin to it.
fn out_with(slot: usize, face: usize, amount: i64) -> Reason {
    let margin = Margin { face, amount };
    Reason::OutsideWithBranch { slot, margin }
}

/// Outside by its own test, at this slot, by a face and the margin to it.
fn out_itself(slot: usize, face: usize, amount: i64) -> Reason {
    let margin = Margin { face, amount };
    Reason::OutsideByItself { slot, margin }
}

/// The reasons of all points of a shelf, in shelf order.
fn reasons(shelf: &Shelf, region: &Region) -> Vec<Reason> {
    let explain = |&number: &u32| shelf.explain(region, number).unwrap();
    shelf.order().iter().map(explain).collect()
}

/// The reasons of the six points, with these faces.
fn of_a(normals: &[i32], offsets: &[i64], marks: &[u8]) -> Vec<Reason> {
    let shelf = Shelf::new(2, &A[..]).unwrap();
    assert_eq!(shelf.order(), A_ORDER);
    let region = Region::with_marks(2, normals.to_vec(), offsets.to_vec(), marks.to_vec());
    reasons(&shelf, &region.unwrap())
}

/// The six points and two faces of the README: x + y - 7, and 6 - x. Only slot 0 is settled, a branch of one slot.
#[test]
fn by_hand() {
    let mut expected = vec![
        out_with(0, 0, -1),
        out_itself(1, 0, -3),
        out_itself(2, 0, -1),
        in_itself(3),
        out_itself(4, 1, -1),
        in_itself(5),
    ];
    assert_eq!(of_a(&[1, 1, -1, 0], &[7, -6], &[0, 0]), expected);
    expected[5] = out_itself(5, 1, 0); // point 4 lies on the second face
    assert_eq!(of_a(&[1, 1, -1, 0], &[7, -6], &[0, 1]), expected);
}

/// The branch nearest the root is named, by the face that its box is below: face 1, though all its points are below face 0 too.
#[test]
fn nearest_the_root() {
    let expected = [
        out_with(1, 1, -1),
        out_with(1, 1, -3),
        out_with(1, 1, -4),
        out_itself(3, 1, -1),
        in_itself(4),
        in_itself(5),
    ];
    assert_eq!(of_a(&[1, 1, 1, 0], &[7, 5], &[0, 0]), expected);
}

/// Of several faces the lowest-numbered is named, though the margin to a later one is less: y >= 2 and y >= 5 for point 3 by itself, x >= 8
/// and x >= 9 for the whole shelf.
#[test]
fn lowest_numbered() {
    let by_itself = of_a(&[0, 1, 0, 1], &[2, 5], &[0, 0]);
    assert_eq!(by_itself[4], out_itself(4, 0, -1));
    let with_branch = of_a(&[1, 0, 1, 0], &[8, 9], &[0, 0]);
    assert_eq!(with_branch[4], out_with(3, 0, -1));
}

/// A point on an open face is below it, with margin 0, be it with a branch or by itself.
#[test]
fn on_an_open_face() {
    let closed = of_a(&[1, 0], &[4], &[0]);
    assert_eq!(closed[0], in_itself(0));
    assert_eq!(closed[3..], [in_itself(3), in_with(5), in_with(5)]);
    let open = of_a(&[1, 0], &[4], &[1]);
    assert_eq!(open[0], out_with(1, 0, 0));
    assert_eq!(open[3..], [out_itself(3, 0, 0), in_itself(4), in_itself(5)]);
}

/// The whole shelf settled, in each way and with no faces: the root is named for every point.
#[test]
fn whole_shelf() {
    assert_eq!(of_a(&[], &[], &[]), [in_with(3); 6]);
    assert_eq!(of_a(&[1, 0], &[1], &[0]), [in_with(3); 6]);
    let margins = [4, 2, 1, 4, 7, 6].map(|x| x - 8);
    let outside = margins.map(|margin| out_with(3, 0, margin));
    assert_eq!(of_a(&[1, 0], &[8], &[0]), outside);
}

/// What a reason has is what its case has.
#[test]
fn parts() {
    let margin = Some(Margin {
        face: 3,
        amount: -120,
    });
    for (reason, inside, with_branch, slot, margin) in [
        (in_with(7), true, true, 7, None),
        (in_itself(8), true, false, 8, None),
        (out_with(9, 3, -120), false, true, 9, margin),
        (out_itself(10, 3, -120), false, false, 10, margin),
    ] {
        assert_eq!(
            (reason.inside(), reason.with_branch()),
            (inside, with_branch)
        );
        assert_eq!((reason.slot(), reason.margin()), (slot, margin));
    }
}

/// Each reason is a sentence that an editor can read, with no negative number in it.
#[test]
fn sentences() {
    for (reason, sentence) in [
        (
            in_with(7),
            "inside: above every face, with the whole branch at slot 7",
        ),
        (
            in_itself(7),
            "inside: above every face, by its own test at slot 7",
        ),
        (
            out_with(7, 3, -120),
            "outside: below face 3 by 120, with the whole branch at slot 7",
        ),
        (
            out_itself(7, 3, -1),
            "outside: below face 3 by 1, by its own test at slot 7",
        ),
        (
            out_with(7, 3, 0),
            "outside: on face 3, which is open, with the whole branch at slot 7",
        ),
        (
            out_itself(7, 3, 0),
            "outside: on face 3, which is open, by its own test at slot 7",
        ),
    ] {
        assert_eq!(reason.to_string(), sentence);
    }
}

/// The least margin there is.
#[test]
fn least_margin() {
    let below = Region::new(4, vec![32_767; 4], vec![MAX_OFFSET]).unwrap();
    let shelf = Shelf::new(4, vec![-32_768; 4]).unwrap();
    assert_eq!(reasons(&shelf, &below), [out_with(0, 0, -MAX_MARGIN)]);
}

/// A reason says inside exactly where the list does, and by its own test as often as there are visits.
#[test]
fn by_list() {
    let points: Vec<i32> = (0..300).map(|i| i * 7919 % 101).collect();
    let shelf = Shelf::new(3, &points[..]).unwrap();
    for offset in (0..400).step_by(20) {
        let region = Region::new(3, vec![1, 2, 1, -1, 0, 1], vec![offset, -50]).unwrap();
        let reasons = reasons(&shelf, &region);
        let mut buffer = vec![0; shelf.len()];
        let listing = shelf.list(&region, &mut buffer).unwrap();
        let pairs = shelf.order().iter().zip(&reasons);
        let inside = pairs.filter(|(_, reason)| reason.inside());
        assert!(inside.map(|(number, _)| number).eq(listing.inside()));
        let own = reasons.iter().filter(|reason| !reason.with_branch());
        assert_eq!(own.count(), listing.visits() as usize);
    }
}

/// A wrong order comes before a number that no point has, and a bad mark before both.
#[test]
fn tested_last() {
    let (points, live, wrong, right) = ([0, 10], [1, 1], [1, 0, 7], [0, 1, 7]);
    for (order, number, mark, code) in [
        (wrong, 2, 2, 11),
        (wrong, 2, 0, 9),
        (right, 2, 0, 17),
        (right, u32::MAX, 0, 17),
        (wrong, 1, 0, 9),
    ] {
        let answer = raw::explain(1, 2, 1, number, &points, &live, &order, &[1], &[5], &[mark]);
        let refused = raw::Explaining {
            code,
            ..raw::Explaining::default()
        };
        assert_eq!(answer, refused);
    }
    let done = raw::explain(1, 2, 1, 1, &points, &live, &right, &[1], &[5], &[0]);
    let inside = raw::Explaining {
        reason: raw::INSIDE_BY_ITSELF,
        slot: 1,
        ..raw::Explaining::default()
    };
    assert_eq!(done, inside);
}
