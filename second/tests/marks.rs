//! Closed and open faces, every point live: worked examples, the marks refused, and
//! random shelves.

use second::{arrange, list, open_slots, place, screen, visits_of_face, visits_of_region};
use second::{Listing, Placing, Screening};

const A: [i32; 12] = [1, 5, 4, 2, 4, 8, 7, 1, 6, 6, 2, 2];
const A_LIVE: [u8; 6] = [1; 6];
const A_ORDER: [u32; 6] = [1, 5, 0, 2, 3, 4];

/// A region: normals, offsets and marks.
type Region<'a> = (&'a [i32], &'a [i64], &'a [u8]);

/// Arranges these points, which must be done, and gives the order.
fn arranged(k: usize, points: &[i32]) -> Vec<u32> {
    let n = points.len() / k;
    let mut order = vec![77; n];
    assert_eq!(arrange(k, n, points, &vec![1; n], &mut order).code, 0);
    order
}

/// Lists a arranged shelf: inside, outside and visits, and the list.
fn listed(k: usize, points: &[i32], region: Region) -> ([u32; 3], Vec<u32>) {
    let (normals, offsets, marks) = region;
    let order = arranged(k, points);
    let (n, h) = (order.len(), offsets.len());
    let mut places = vec![88; n];
    let lent = &mut places;
    let answer = list(
        k,
        n,
        h,
        points,
        &vec![1; n],
        &order,
        normals,
        offsets,
        marks,
        lent,
    );
    assert_eq!(answer.code, 0);
    ([answer.inside, answer.outside, answer.visits], places)
}

/// Screens a arranged shelf: found, number and visits.
fn screened(k: usize, points: &[i32], region: Region) -> [u32; 3] {
    let (normals, offsets, marks) = region;
    let order = arranged(k, points);
    let (n, h) = (order.len(), offsets.len());
    let answer = screen(
        k,
        n,
        h,
        points,
        &vec![1; n],
        &order,
        normals,
        offsets,
        marks,
    );
    assert_eq!(answer.code, 0);
    [answer.found, answer.number, answer.visits]
}

/// Whether one point is inside a region, 1 or 0.
fn placed(point: &[i32], region: Region) -> u32 {
    let (normals, offsets, marks) = region;
    let answer = place(point.len(), offsets.len(), point, normals, offsets, marks);
    assert_eq!(answer.code, 0);
    answer.inside
}

/// A point exactly on a face is inside when the face is closed, not when it is
/// open; one step off, the mark does not matter.
#[test]
fn point_on_a_face() {
    for (x, closed, open) in [(4, 0, 0), (5, 1, 0), (6, 1, 1)] {
        assert_eq!(placed(&[x], (&[1], &[5], &[0])), closed);
        assert_eq!(placed(&[x], (&[1], &[5], &[1])), open);
        assert_eq!(placed(&[-x], (&[-1], &[5], &[0])), closed);
        assert_eq!(placed(&[-x], (&[-1], &[5], &[1])), open);
    }
    for point in [[1, 5], [4, 2]] {
        assert_eq!(placed(&point, (&[1, 1], &[6], &[0])), 1);
        assert_eq!(placed(&point, (&[1, 1], &[6], &[1])), 0);
    }
}

/// The greatest sum and the least, exactly on the face.
#[test]
fn greatest_and_least_sums_on_a_face() {
    for (x, m) in [(32_767, 4_294_705_156), (-32_768, -4_294_836_224)] {
        for (mark, inside) in [(0, 1), (1, 0)] {
            assert_eq!(placed(&[x; 4], (&[32_767; 4], &[m], &[mark])), inside);
        }
        assert_eq!(placed(&[x; 4], (&[32_767; 4], &[m - 1], &[1])), 1);
        assert_eq!(placed(&[x; 4], (&[32_767; 4], &[m + 1], &[0])), 0);
    }
}

/// Shelf A with face (1, 0), m 4. The boxes x 1..4 of slots 0 to 2 and x 4..7 of
/// slots 4 and 5 touch it. With mark 0 the former are open branches and the
/// latter wholly above; with mark 1 the former are wholly below and the latter
/// open.
#[test]
fn box_corner_on_a_face() {
    let closed: Region = (&[1, 0], &[4], &[0]);
    assert_eq!(listed(2, &A, closed), ([4, 2, 4], vec![1, 2, 3, 4, 0, 5]));
    assert_eq!(screened(2, &A, closed), [1, 1, 1]);
    let open: Region = (&[1, 0], &[4], &[1]);
    assert_eq!(listed(2, &A, open), ([2, 4, 3], vec![3, 4, 2, 0, 5, 1]));
    assert_eq!(screened(2, &A, open), [1, 3, 2]);
}

/// The same face seen from the other side, (-1, 0), m -4. With mark 0 slots 3 to
/// 5 are open branches; with mark 1 slots 0 to 3 are.
#[test]
fn box_corner_on_a_face_with_a_negative_component() {
    let closed: Region = (&[-1, 0], &[-4], &[0]);
    assert_eq!(listed(2, &A, closed), ([4, 2, 3], vec![1, 5, 0, 2, 4, 3]));
    assert_eq!(screened(2, &A, closed), [1, 1, 0]);
    let open: Region = (&[-1, 0], &[-4], &[1]);
    assert_eq!(listed(2, &A, open), ([2, 4, 4], vec![5, 0, 4, 3, 2, 1]));
    assert_eq!(screened(2, &A, open), [1, 5, 2]);
}

/// Which slots of shelf A are open for face (1, 0), m 4, with either mark.
#[test]
fn open_slots_with_either_mark() {
    let slots = |mark: u8| open_slots(2, 6, 1, &A, &A_LIVE, &A_ORDER, &[1, 0], &[4], &[mark]);
    assert_eq!(slots(0), Ok(vec![true, true, true, true, false, false]));
    assert_eq!(slots(1), Ok(vec![false, false, false, true, true, true]));
    let visits = |mark: u8| visits_of_face(2, 6, &A, &A_LIVE, &A_ORDER, &[1, 0], 4, mark);
    assert_eq!((visits(0), visits(1)), (Ok(4), Ok(3)));
}

/// Shelf A with face (1, 1), m 6: points 0 and 1 lie on it. The box of slot 0
/// reaches 6 at most, so that with mark 1 it is wholly below.
#[test]
fn slanting_face() {
    let closed: Region = (&[1, 1], &[6], &[0]);
    assert_eq!(listed(2, &A, closed), ([5, 1, 6], vec![1, 0, 2, 3, 4, 5]));
    assert_eq!(screened(2, &A, closed), [1, 1, 1]);
    let open: Region = (&[1, 1], &[6], &[1]);
    assert_eq!(listed(2, &A, open), ([3, 3, 5], vec![2, 3, 4, 0, 5, 1]));
    assert_eq!(screened(2, &A, open), [1, 2, 3]);
}

/// Shelf A with face (1, 1), m 13: none inside. With mark 0 slots 3, 4 and 5 are
/// open; slot 4 reaches 13 at most, so that with mark 1 it is wholly below.
#[test]
fn none_found_with_either_mark() {
    assert_eq!(screened(2, &A, (&[1, 1], &[13], &[0])), [0, 0, 3]);
    assert_eq!(screened(2, &A, (&[1, 1], &[13], &[1])), [0, 0, 2]);
}

/// Each mark belongs to its own face. On shelf A points 0 and 1 lie on face
/// (1, 1), m 6, and point 4 on face (-1, 0), m -6. With mark 1 on the first face
/// slot 0 is wholly below it; the other five slots are open with any marks.
#[test]
fn each_face_has_its_own_mark() {
    let rows = [
        ([0, 0], [4, 2, 6], [1, 0, 2, 4, 3, 5], [1, 1, 1]),
        ([1, 0], [2, 4, 5], [2, 4, 3, 0, 5, 1], [1, 2, 3]),
        ([0, 1], [3, 3, 6], [1, 0, 2, 4, 3, 5], [1, 1, 1]),
        ([1, 1], [1, 5, 5], [2, 4, 3, 0, 5, 1], [1, 2, 3]),
    ];
    for (marks, count, places, screening) in rows {
        let region: Region = (&[1, 1, -1, 0], &[6, -6], &marks);
        assert_eq!(listed(2, &A, region), (count, places.to_vec()));
        assert_eq!(screened(2, &A, region), screening);
    }
}

/// Two points 0 and 10 of one dimension, the face at an end of the root box.
#[test]
fn root_box_on_a_face() {
    let points = [0, 10];
    let rows = [
        (10, 0, [1, 1, 2], [1, 1, 2]),
        (10, 1, [0, 2, 0], [0, 0, 0]),
        (0, 0, [2, 0, 0], [1, 0, 0]),
        (0, 1, [1, 1, 2], [1, 1, 2]),
    ];
    for (m, mark, count, screening) in rows {
        let region: Region = (&[1], &[m], &[mark]);
        assert_eq!(listed(1, &points, region).0, count);
        assert_eq!(screened(1, &points, region), screening);
    }
}

/// One point on the face: its box is that point, settled with either mark.
#[test]
fn one_point_on_a_face() {
    assert_eq!(listed(1, &[5], (&[1], &[5], &[0])).0, [1, 0, 0]);
    assert_eq!(listed(1, &[5], (&[1], &[5], &[1])).0, [0, 1, 0]);
    assert_eq!(screened(1, &[5], (&[1], &[5], &[0])), [1, 0, 0]);
    assert_eq!(screened(1, &[5], (&[1], &[5], &[1])), [0, 0, 0]);
}

/// The zero normal has the sum 0 everywhere: m 0 holds all when closed and none
/// when open; never a visit.
#[test]
fn zero_normal() {
    for (m, mark, inside) in [(0, 0, 6), (0, 1, 0), (-1, 1, 6), (1, 0, 0), (1, 1, 0)] {
        let region: Region = (&[0, 0], &[m], &[mark]);
        assert_eq!(listed(2, &A, region).0, [inside, 6 - inside, 0]);
        assert_eq!(screened(2, &A, region)[2], 0);
    }
}

/// The codes of list, screen, the one-point test and the open slots for two
/// points of one dimension with `h` faces and these marks.
fn codes(h: usize, marks: &[u8]) -> [u32; 5] {
    let (points, live, order) = ([0, 10], [1; 2], [0, 1]);
    let (normals, offsets) = (vec![1; h], vec![5; h]);
    let mut places = [80, 81];
    let lent = &mut places;
    let listing = list(
        1, 2, h, &points, &live, &order, &normals, &offsets, marks, lent,
    );
    let screening = screen(1, 2, h, &points, &live, &order, &normals, &offsets, marks);
    let placing = place(1, h, &[7], &normals, &offsets, marks);
    let open = open_slots(1, 2, h, &points, &live, &order, &normals, &offsets, marks);
    let visits = visits_of_region(1, 2, h, &points, &live, &order, &normals, &offsets, marks);
    if listing.code != 0 {
        let code = listing.code;
        let zeros = (Listing::default(), Screening::default(), Placing::default());
        assert_eq!(listing, Listing { code, ..zeros.0 });
        assert_eq!(screening, Screening { code, ..zeros.1 });
        assert_eq!(placing, Placing { code, ..zeros.2 });
        assert_eq!(places, [80, 81]);
    }
    let (open, visits) = (open.err().unwrap_or(0), visits.err().unwrap_or(0));
    [listing.code, screening.code, placing.code, open, visits]
}

/// Number 11 for marks one too few and one too many.
#[test]
fn marks_not_h_long() {
    for h in [0, 1, 2, 31, 32] {
        assert_eq!(codes(h, &vec![0; h]), [0; 5]);
        assert_eq!(codes(h, &vec![1; h]), [0; 5]);
        assert_eq!(codes(h, &vec![0; h + 1]), [11; 5]);
        if h > 0 {
            assert_eq!(codes(h, &vec![1; h - 1]), [11; 5]);
            assert_eq!(codes(h, &[]), [11; 5]);
        }
    }
}

/// Number 11 for every mark but 0 and 1, whichever face has it.
#[test]
fn another_mark() {
    for mark in 0..=255 {
        let code = if mark <= 1 { 0 } else { 11 };
        for face in 0..3 {
            let mut marks = [0, 1, 0];
            marks[face] = mark;
            assert_eq!(codes(3, &marks), [code; 5]);
        }
        let alone = visits_of_face(1, 2, &[0, 10], &[1; 2], &[0, 1], &[1], 5, mark);
        assert_eq!(alone.err().unwrap_or(0), code);
    }
}

/// 11 is tested directly after 8 and so before 9, with either fault of the marks.
#[test]
fn marks_tested_after_8_and_before_9() {
    for marks in [&[][..], &[2], &[0, 0]] {
        let of_list = |order: &[u32], normal: i32, m: i64| {
            let (points, live) = ([0, 10], [1; 2]);
            let (normals, offsets, lent) = ([normal], [m], &mut [80, 81]);
            let listing = list(
                1, 2, 1, &points, &live, order, &normals, &offsets, marks, lent,
            );
            let screening = screen(1, 2, 1, &points, &live, order, &normals, &offsets, marks);
            (listing.code, screening.code)
        };
        assert_eq!(of_list(&[1, 0], 1, 5), (11, 11));
        assert_eq!(of_list(&[0, 1], 1, 5), (11, 11));
        assert_eq!(of_list(&[0, 1], 32_768, 5), (8, 8));
        assert_eq!(of_list(&[0, 1], 1, 8_589_934_593), (8, 8));
        assert_eq!(of_list(&[1, 0], -32_768, 5), (8, 8));
    }
}

/// The one-point test with the marks wrong and one other fault: the other comes
/// first.
#[test]
fn one_point_test_with_two_faults() {
    for marks in [&[][..], &[2], &[0, 0]] {
        let code = |k, h, point: &[i32], normals: &[i32], offsets: &[i64]| {
            place(k, h, point, normals, offsets, marks).code
        };
        assert_eq!(code(1, 1, &[0], &[1], &[5]), 11);
        assert_eq!(code(5, 1, &[0], &[1], &[5]), 1);
        assert_eq!(code(1, 1, &[0, 0], &[1], &[5]), 3);
        assert_eq!(code(1, 1, &[32_768], &[1], &[5]), 5);
        assert_eq!(code(1, 33, &[0], &[1; 33], &[5; 33]), 6);
        assert_eq!(code(1, 1, &[0], &[1, 1], &[5]), 7);
        assert_eq!(code(1, 1, &[0], &[1], &[]), 7);
        assert_eq!(code(1, 1, &[0], &[-32_768], &[5]), 8);
    }
}

/// On the empty shelf the marks are tested all the same.
#[test]
fn marks_of_the_empty_shelf() {
    for (marks, code) in [([0], 0), ([1], 0), ([2], 11)] {
        let answer = list(1, 0, 1, &[], &[], &[], &[1], &[5], &marks, &mut []);
        assert_eq!(answer.code, code);
        let answer = screen(1, 0, 1, &[], &[], &[], &[1], &[5], &marks);
        assert_eq!((answer.code, answer.found), (code, 0));
    }
}

/// So many numbers that look random, from `-most` to `most`.
fn thrown(state: &mut u64, count: usize, most: i64) -> Vec<i64> {
    let next = |_| {
        *state ^= *state << 13;
        *state ^= *state >> 7;
        *state ^= *state << 17;
        (*state % (2 * most + 1) as u64) as i64 - most
    };
    (0..count).map(next).collect()
}

/// The same numbers in 32 bits.
fn narrow(row: Vec<i64>) -> Vec<i32> {
    row.into_iter().map(|x| x as i32).collect()
}

/// Sums are whole numbers, so an open face with offset m is a closed one with
/// offset m + 1: lists, visits and screens are equal.
#[test]
fn open_face_is_the_next_closed_one() {
    let mut state = 61;
    for round in 0..400 {
        let (k, n, h) = (1 + round % 4, round % 41, 1 + round % 5);
        let points = narrow(thrown(&mut state, k * n, 7));
        let normals = narrow(thrown(&mut state, k * h, 3));
        let offsets = thrown(&mut state, h, 20);
        let marks: Vec<u8> = thrown(&mut state, h, 4)
            .into_iter()
            .map(|throw| u8::from(throw > 0))
            .collect();
        let raised = offsets
            .iter()
            .zip(&marks)
            .map(|(m, &mark)| m + i64::from(mark));
        let raised: Vec<i64> = raised.collect();
        let marked: Region = (&normals, &offsets, &marks);
        let closed: Region = (&normals, &raised, &vec![0; h]);
        assert_eq!(listed(k, &points, marked), listed(k, &points, closed));
        assert_eq!(screened(k, &points, marked), screened(k, &points, closed));
    }
}

/// Two regions side by side, the shared face closed in one and open in the other:
/// each point is inside exactly one of them, and the visits are the same.
#[test]
fn regions_side_by_side() {
    let mut state = 67;
    for round in 0..400 {
        let (k, n) = (1 + round % 4, round % 41);
        let points = narrow(thrown(&mut state, k * n, 7));
        let normal = narrow(thrown(&mut state, k, 3));
        let opposite: Vec<i32> = normal.iter().map(|a| -a).collect();
        let m = thrown(&mut state, 1, 9)[0];
        let owner: Region = (&normal, &[m], &[0]);
        let neighbour: Region = (&opposite, &[-m], &[1]);
        for point in points.chunks(k) {
            assert_eq!(placed(point, owner) + placed(point, neighbour), 1);
        }
        let ([inside, outside, visits], _) = listed(k, &points, owner);
        assert_eq!(listed(k, &points, neighbour).0, [outside, inside, visits]);
    }
}
