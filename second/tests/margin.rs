//! By how much: the least distance number of the one-point test and its face, in
//! worked examples, refusals and random cases.

use second::{list, place, screen, Placing};

const A: [i32; 12] = [1, 5, 4, 2, 4, 8, 7, 1, 6, 6, 2, 2];
const TWO_NORMALS: [i32; 4] = [1, 1, -1, 0];
const TWO_OFFSETS: [i64; 2] = [7, -6];
const FURTHEST: i64 = 12_884_770_816;
const LAST_OFFSET: i64 = 8_589_934_592;

/// A region: normals, offsets and marks.
type Region<'a> = (&'a [i32], &'a [i64], &'a [u8]);

/// The whole answer for one point and a region.
fn placed(point: &[i32], region: Region) -> Placing {
    let (normals, offsets, marks) = region;
    place(point.len(), offsets.len(), point, normals, offsets, marks)
}

/// A done answer with this face and margin.
fn measured(inside: u32, face: u16, margin: i64) -> Placing {
    Placing {
        code: 0,
        inside,
        measured: 1,
        face,
        margin,
    }
}

/// The point 0 of one dimension against faces with normal 1 and offset minus the
/// distance number, so that these are its distance numbers.
fn at_distances(distances: &[i64], marks: &[u8]) -> Placing {
    let normals = vec![1; distances.len()];
    let offsets: Vec<i64> = distances.iter().map(|distance| -distance).collect();
    placed(&[0], (&normals, &offsets, marks))
}

/// Each point of shelf A with its two faces: x + y - 7 and 6 - x.
#[test]
fn shelf_a_with_two_faces() {
    let rows = [
        measured(0, 0, -1),
        measured(0, 0, -1),
        measured(1, 1, 2),
        measured(0, 1, -1),
        measured(1, 1, 0),
        measured(0, 0, -3),
    ];
    for (point, row) in A.chunks(2).zip(rows) {
        assert_eq!(placed(point, (&TWO_NORMALS, &TWO_OFFSETS, &[0, 0])), row);
    }
}

/// The same with both faces open: point 4 lies on the second and is now outside;
/// no face and no margin differs.
#[test]
fn shelf_a_with_two_open_faces() {
    for (number, point) in A.chunks(2).enumerate() {
        let closed = placed(point, (&TWO_NORMALS, &TWO_OFFSETS, &[0, 0]));
        let inside = if number == 4 { 0 } else { closed.inside };
        let open = placed(point, (&TWO_NORMALS, &TWO_OFFSETS, &[1, 1]));
        assert_eq!(open, Placing { inside, ..closed });
    }
}

/// One face, normal 2, m 10: below, on and above it, closed and open.
#[test]
fn below_on_and_above_one_face() {
    let rows = [
        (-9, 0, 0, -28),
        (4, 0, 0, -2),
        (5, 1, 0, 0),
        (6, 1, 1, 2),
        (100, 1, 1, 190),
    ];
    for (x, closed, open, margin) in rows {
        let answer = |mark: u8| placed(&[x], (&[2], &[10], &[mark]));
        assert_eq!(answer(0), measured(closed, 0, margin));
        assert_eq!(answer(1), measured(open, 0, margin));
    }
}

/// One step off the face on either side, with a negative component.
#[test]
fn negative_component() {
    for (x, closed, open, margin) in [(4, 1, 1, 1), (5, 1, 0, 0), (6, 0, 0, -1)] {
        let answer = |mark: u8| placed(&[x], (&[-1], &[-5], &[mark]));
        assert_eq!(answer(0), measured(closed, 0, margin));
        assert_eq!(answer(1), measured(open, 0, margin));
    }
}

/// All k dimensions count: the point (3, -4, 5, -6) with normal (7, 5, -2, 1) has
/// the products 21, -20, -10 and -6.
#[test]
fn every_dimension_counts() {
    let (point, normal) = ([3, -4, 5, -6], [7, 5, -2, 1]);
    for (k, sum) in [(1, 21), (2, 1), (3, -9), (4, -15)] {
        for m in [-20, 0, 20] {
            let answer = placed(&point[..k], (&normal[..k], &[m], &[0]));
            assert_eq!(answer, measured(u32::from(sum >= m), 0, sum - m));
        }
    }
}

/// The least number is meant with its sign, not the one nearest to 0.
#[test]
fn least_is_not_nearest_to_zero() {
    assert_eq!(at_distances(&[5, -100, -1], &[0; 3]), measured(0, 1, -100));
    assert_eq!(at_distances(&[-1, 0, -100], &[0; 3]), measured(0, 2, -100));
    assert_eq!(at_distances(&[10, 3, 4], &[0; 3]), measured(1, 1, 3));
    assert_eq!(at_distances(&[1, -1], &[0; 2]), measured(0, 1, -1));
    assert_eq!(at_distances(&[-1, 1], &[0; 2]), measured(0, 0, -1));
}

/// Of faces with the same least number the lowest-numbered is named.
#[test]
fn ties_name_the_lowest_face() {
    assert_eq!(at_distances(&[4, 2, 2], &[0; 3]), measured(1, 1, 2));
    assert_eq!(at_distances(&[2, 4, 2], &[0; 3]), measured(1, 0, 2));
    assert_eq!(at_distances(&[9, -2, 0, -2], &[0; 4]), measured(0, 1, -2));
    assert_eq!(at_distances(&[1, 0, 0, 0], &[0; 4]), measured(1, 1, 0));
}

/// A tie between different faces: the distance numbers are 5x - 1, y - 1,
/// x + y - 4 and x - 1.
#[test]
fn ties_between_different_faces() {
    let region: Region = (&[5, 0, 0, 1, 1, 1, 1, 0], &[1, 1, 4, 1], &[0; 4]);
    assert_eq!(placed(&[3, 3], region), measured(1, 1, 2));
    assert_eq!(placed(&[3, 2], region), measured(1, 1, 1));
    assert_eq!(placed(&[2, 3], region), measured(1, 2, 1));
}

/// The marks say whether the point is inside; they do not choose the face. A tie
/// at 0 names the lowest face, closed or open.
#[test]
fn marks_do_not_choose_the_face() {
    for (marks, inside) in [([0, 0], 1), ([0, 1], 0), ([1, 0], 0), ([1, 1], 0)] {
        assert_eq!(at_distances(&[0, 0], &marks), measured(inside, 0, 0));
        assert_eq!(at_distances(&[3, 3], &marks), measured(1, 0, 3));
        assert_eq!(at_distances(&[-3, -3], &marks), measured(0, 0, -3));
    }
}

/// A zero at an open face does not hide a lesser number, and a greater number
/// does not hide the zero.
#[test]
fn zero_beside_other_numbers() {
    assert_eq!(at_distances(&[0, -1], &[1, 0]), measured(0, 1, -1));
    assert_eq!(at_distances(&[0, -1], &[0, 1]), measured(0, 1, -1));
    assert_eq!(at_distances(&[1, 0], &[0, 1]), measured(0, 1, 0));
    assert_eq!(at_distances(&[1, 0], &[1, 0]), measured(1, 1, 0));
    assert_eq!(at_distances(&[1, 2], &[1, 1]), measured(1, 0, 1));
}

/// As many faces as there may be, the least number at each of them in turn, and
/// at all of them.
#[test]
fn each_of_32_faces() {
    for face in 0..32u16 {
        let mut distances = [7; 32];
        distances[usize::from(face)] = 6;
        assert_eq!(at_distances(&distances, &[1; 32]), measured(1, face, 6));
        distances[31] = 6;
        assert_eq!(at_distances(&distances, &[0; 32]), measured(1, face, 6));
    }
    assert_eq!(at_distances(&[-6; 32], &[0; 32]), measured(0, 0, -6));
}

/// With no faces every point is inside and nothing is measured.
#[test]
fn no_faces() {
    let inside = Placing {
        inside: 1,
        ..Placing::default()
    };
    for k in 1..=4 {
        for x in [-32_768, -1, 0, 1, 32_767] {
            assert_eq!(placed(&vec![x; k], (&[], &[], &[])), inside);
        }
    }
}

/// The zero normal is a face like any other: its distance number is minus m.
#[test]
fn zero_normal() {
    for (m, closed, open) in [(0, 1, 0), (1, 0, 0), (-1, 1, 1), (LAST_OFFSET, 0, 0)] {
        let answer = |mark: u8| placed(&[9, -9], (&[0, 0], &[m], &[mark]));
        assert_eq!(answer(0), measured(closed, 0, -m));
        assert_eq!(answer(1), measured(open, 0, -m));
    }
}

/// The greatest and the least distance number: four products of 32,767 and
/// 32,768, and the offset furthest on the other side.
#[test]
fn greatest_and_least_distance_numbers() {
    let least = [-32_768; 4];
    for mark in [0, 1] {
        let above = placed(&least, (&[-32_767; 4], &[-LAST_OFFSET], &[mark]));
        assert_eq!(above, measured(1, 0, FURTHEST));
        let below = placed(&least, (&[32_767; 4], &[LAST_OFFSET], &[mark]));
        assert_eq!(below, measured(0, 0, -FURTHEST));
    }
}

/// Both ends for one point: the least wins, whichever face comes first.
#[test]
fn both_ends_at_once() {
    let (up, down) = ([-32_767; 4], [32_767; 4]);
    let offsets = [-LAST_OFFSET, LAST_OFFSET];
    let normals = [up, down].concat();
    let answer = placed(&[-32_768; 4], (&normals, &offsets, &[0, 0]));
    assert_eq!(answer, measured(0, 1, -FURTHEST));
    let (normals, offsets) = ([down, up].concat(), [LAST_OFFSET, -LAST_OFFSET]);
    let answer = placed(&[-32_768; 4], (&normals, &offsets, &[0, 0]));
    assert_eq!(answer, measured(0, 0, -FURTHEST));
}

/// The greatest coordinate is one nearer to 0 than the least, so that its numbers
/// fall short of both ends by 32,767 in each dimension.
#[test]
fn greatest_coordinates() {
    let greatest = [32_767; 4];
    let above = placed(&greatest, (&[32_767; 4], &[-LAST_OFFSET], &[0]));
    assert_eq!(above, measured(1, 0, FURTHEST - 4 * 32_767));
    let below = placed(&greatest, (&[-32_767; 4], &[LAST_OFFSET], &[0]));
    assert_eq!(below, measured(0, 0, -FURTHEST + 4 * 32_767));
}

/// A refusal has its number and zeros in every other field. The call without a
/// fault has a zero in its code alone.
#[test]
fn refusals_have_zeros() {
    let done = place(1, 2, &[9], &[2, 1], &[3, 4], &[0, 0]);
    assert_eq!(done, measured(1, 1, 5));
    let refused = [
        (1, place(0, 2, &[9], &[2, 1], &[3, 4], &[0, 0])),
        (1, place(5, 2, &[9], &[2, 1], &[3, 4], &[0, 0])),
        (3, place(1, 2, &[], &[2, 1], &[3, 4], &[0, 0])),
        (3, place(1, 2, &[9, 9], &[2, 1], &[3, 4], &[0, 0])),
        (5, place(1, 2, &[32_768], &[2, 1], &[3, 4], &[0, 0])),
        (5, place(1, 2, &[-32_769], &[2, 1], &[3, 4], &[0, 0])),
        (6, place(1, 33, &[9], &[2; 33], &[3; 33], &[0; 33])),
        (7, place(1, 2, &[9], &[2], &[3, 4], &[0, 0])),
        (7, place(1, 2, &[9], &[2, 1], &[3, 4, 4], &[0, 0])),
        (8, place(1, 2, &[9], &[2, -32_768], &[3, 4], &[0, 0])),
        (8, place(1, 2, &[9], &[2, 1], &[3, 8_589_934_593], &[0, 0])),
        (11, place(1, 2, &[9], &[2, 1], &[3, 4], &[0])),
        (11, place(1, 2, &[9], &[2, 1], &[3, 4], &[0, 2])),
    ];
    for (code, answer) in refused {
        let zeros = Placing::default();
        assert_eq!(answer, Placing { code, ..zeros });
    }
}

/// One random case: a point and a region.
struct Case {
    point: Vec<i32>,
    normals: Vec<i32>,
    offsets: Vec<i64>,
    marks: Vec<u8>,
}

impl Case {
    /// The region of the case.
    fn region(&self) -> Region<'_> {
        (&self.normals, &self.offsets, &self.marks)
    }

    /// The distance numbers, summed up here by the words themselves.
    fn distances(&self) -> Vec<i64> {
        let rows = self.normals.chunks(self.point.len()).zip(&self.offsets);
        rows.map(|(normal, m)| {
            let pairs = normal.iter().zip(&self.point);
            let sum: i64 = pairs.map(|(&a, &x)| i64::from(a) * i64::from(x)).sum();
            sum - m
        })
        .collect()
    }

    /// The same point with the faces in the opposite order.
    fn backwards(&self) -> Case {
        let rows = self.normals.chunks(self.point.len()).rev();
        Case {
            point: self.point.clone(),
            normals: rows.flatten().copied().collect(),
            offsets: self.offsets.iter().rev().copied().collect(),
            marks: self.marks.iter().rev().copied().collect(),
        }
    }
}

/// So many numbers that look random, from `least` to `greatest`.
fn thrown(state: &mut u64, count: usize, least: i64, greatest: i64) -> Vec<i64> {
    let next = |_| {
        *state ^= *state << 13;
        *state ^= *state >> 7;
        *state ^= *state << 17;
        least + (*state % (greatest - least + 1) as u64) as i64
    };
    (0..count).map(next).collect()
}

/// The same numbers in 32 bits.
fn narrow(row: Vec<i64>) -> Vec<i32> {
    row.into_iter().map(|x| x as i32).collect()
}

/// Random cases, half of them with 0 to 4 faces and half with 0 to 32: mostly
/// small numbers, so that zeros and ties are frequent, and a quarter of the cases
/// over the whole ranges.
fn cases() -> Vec<Case> {
    let mut state = 73;
    let case = |round: usize| {
        let k = 1 + round % 4;
        let h = if round < 3000 { round % 5 } else { round % 33 };
        let (x, a, least_m, greatest_m) = match round % 16 < 12 {
            true => (3, 2, -4 * k as i64, 0),
            false => (32_767, 32_767, -LAST_OFFSET, LAST_OFFSET),
        };
        Case {
            point: narrow(thrown(&mut state, k, -x - 1, x)),
            normals: narrow(thrown(&mut state, k * h, -a, a)),
            offsets: thrown(&mut state, h, least_m, greatest_m),
            marks: narrow(thrown(&mut state, h, 0, 1))
                .into_iter()
                .map(|mark| mark as u8)
                .collect(),
        }
    };
    (0..6000).map(case).collect()
}

/// Inside exactly if every face's distance number is above 0, or is 0 with the
/// face closed.
#[test]
fn inside_by_the_distance_numbers() {
    for case in cases() {
        let answer = placed(&case.point, case.region());
        let above = |(&distance, &mark): (&i64, &u8)| distance > 0 || distance == 0 && mark == 0;
        let inside = case.distances().iter().zip(&case.marks).all(above);
        assert_eq!((answer.code, answer.inside), (0, u32::from(inside)));
    }
}

/// The margin is attained by the face named and by no lower-numbered one, and
/// none is less. With no faces all three are 0.
#[test]
fn margin_is_the_least_and_its_face_the_lowest() {
    for case in cases() {
        let answer = placed(&case.point, case.region());
        let (distances, face) = (case.distances(), usize::from(answer.face));
        if distances.is_empty() {
            assert_eq!((answer.measured, face, answer.margin), (0, 0, 0));
            continue;
        }
        assert_eq!((answer.measured, distances[face]), (1, answer.margin));
        assert!(distances[..face].iter().all(|&lower| lower > answer.margin));
        assert!(distances.iter().all(|&any| any >= answer.margin));
        assert!((-FURTHEST..=FURTHEST).contains(&answer.margin));
    }
}

/// A margin above 0 is inside and one below 0 is outside; only at 0 do the marks
/// matter.
#[test]
fn sign_of_the_margin() {
    for case in cases() {
        let answer = placed(&case.point, case.region());
        let inside = match answer.margin.signum() {
            1 => 1,
            -1 => 0,
            _ => answer.inside,
        };
        assert_eq!(answer.inside, inside);
    }
}

/// The list of a shelf with this point alone, and its screen, agree with inside.
#[test]
fn one_point_shelf_agrees() {
    for case in cases() {
        let (point, (normals, offsets, marks)) = (&case.point, case.region());
        let (k, h) = (point.len(), offsets.len());
        let inside = placed(point, case.region()).inside;
        let lent = &mut [88];
        let listing = list(k, 1, h, point, &[1], &[0], normals, offsets, marks, lent);
        let counts = (listing.inside, listing.outside, listing.visits);
        assert_eq!((listing.code, counts), (0, (inside, 1 - inside, 0)));
        assert_eq!(lent, &[0]);
        let screening = screen(k, 1, h, point, &[1], &[0], normals, offsets, marks);
        assert_eq!((screening.code, screening.found), (0, inside));
    }
}

/// With the faces in the opposite order inside and the margin stay; the face
/// named is then the highest-numbered that has the margin.
#[test]
fn faces_backwards() {
    for case in cases() {
        let answer = placed(&case.point, case.region());
        let other = case.backwards();
        let distances = case.distances();
        let highest = distances.iter().rposition(|&any| any == answer.margin);
        let face = highest.map_or(0, |highest| distances.len() - 1 - highest) as u16;
        let expected = Placing { face, ..answer };
        assert_eq!(placed(&other.point, other.region()), expected);
    }
}

/// The random cases hold what they are made for: no faces, margins below, at and
/// above 0, at 0 both inside and outside, and ties.
#[test]
fn cases_of_every_kind() {
    let mut seen = [0; 6];
    for case in cases() {
        let answer = placed(&case.point, case.region());
        let least = |&any: &i64| any == answer.margin;
        let ties = case.distances().into_iter().filter(least).count();
        let on = answer.measured == 1 && answer.margin == 0;
        let kinds = [
            answer.measured == 0,
            answer.margin < 0,
            answer.margin > 0,
            on && answer.inside == 1,
            on && answer.inside == 0,
            ties > 1,
        ];
        for (count, kind) in seen.iter_mut().zip(kinds) {
            *count += u32::from(kind);
        }
    }
    assert!(seen.iter().all(|&count| count >= 100), "{seen:?}");
}
