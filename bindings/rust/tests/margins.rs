//! By how much a point is inside or outside a region.

use hornherder::{Margin, Region, MAX_MARGIN, MAX_OFFSET};

const A: [i32; 12] = [1, 5, 4, 2, 4, 8, 7, 1, 6, 6, 2, 2];

/// Whether a point is inside, with the face and the amount of its margin.
fn placed(region: &Region, point: &[i32]) -> (bool, Option<(usize, i64)>) {
    let placing = region.place(point).unwrap();
    assert_eq!(region.contains(point), Ok(placing.inside()));
    let pair = |Margin { face, amount }| (face, amount);
    (placing.inside(), placing.margin().map(pair))
}

/// The region that has the point 0 at these margins, with these marks.
fn at(margins: &[i64], marks: &[u8]) -> Region {
    let offsets = margins.iter().map(|margin| -margin).collect();
    Region::with_marks(1, vec![1; margins.len()], offsets, marks.to_vec()).unwrap()
}

/// The six points and two faces of the README: x + y - 7, and 6 - x.
#[test]
fn by_hand() {
    let region = Region::new(2, vec![1, 1, -1, 0], vec![7, -6]).unwrap();
    let all: Vec<_> = A.chunks(2).map(|point| placed(&region, point)).collect();
    let expected = [
        (false, Some((0, -1))),
        (false, Some((0, -1))),
        (true, Some((1, 2))),
        (false, Some((1, -1))),
        (true, Some((1, 0))),
        (false, Some((0, -3))),
    ];
    assert_eq!(all, expected);
}

/// On a face the mark decides, and the margin is 0 with either.
#[test]
fn on_a_face() {
    assert_eq!(placed(&at(&[0], &[0]), &[0]), (true, Some((0, 0))));
    assert_eq!(placed(&at(&[0], &[1]), &[0]), (false, Some((0, 0))));
    assert_eq!(placed(&at(&[1], &[1]), &[0]), (true, Some((0, 1))));
    assert_eq!(placed(&at(&[-1], &[0]), &[0]), (false, Some((0, -1))));
}

/// Of faces with the same least margin the lowest-numbered is named, whatever the marks.
#[test]
fn ties() {
    for (marks, inside) in [([0, 0], true), ([0, 1], false), ([1, 0], false)] {
        assert_eq!(placed(&at(&[0, 0], &marks), &[0]), (inside, Some((0, 0))));
        assert_eq!(placed(&at(&[4, 4], &marks), &[0]), (true, Some((0, 4))));
    }
    let later = at(&[9, -2, 5, -2], &[0; 4]);
    assert_eq!(placed(&later, &[0]), (false, Some((1, -2))));
}

/// All faces count, also those after one that the point is below.
#[test]
fn least_of_all() {
    let region = at(&[-1, 5, -100, -50], &[0, 1, 0, 1]);
    assert_eq!(placed(&region, &[0]), (false, Some((2, -100))));
    for face in 0..32 {
        let mut margins = [7; 32];
        margins[face] = 6;
        let region = at(&margins, &[0; 32]);
        assert_eq!(placed(&region, &[0]), (true, Some((face, 6))));
    }
}

/// With no faces every point is inside, and there is no margin.
#[test]
fn no_faces() {
    for k in 1..=4 {
        let everywhere = Region::everywhere(k).unwrap();
        assert_eq!(placed(&everywhere, &vec![-32_768; k]), (true, None));
    }
}

/// Both ends of the range, at the least coordinates.
#[test]
fn both_ends() {
    let least = [-32_768; 4];
    let below = Region::new(4, vec![32_767; 4], vec![MAX_OFFSET]).unwrap();
    assert_eq!(placed(&below, &least), (false, Some((0, -MAX_MARGIN))));
    let above = Region::new(4, vec![-32_767; 4], vec![-MAX_OFFSET]).unwrap();
    assert_eq!(placed(&above, &least), (true, Some((0, MAX_MARGIN))));
}
