//! The twelve given examples, with every point live and every face closed, and the
//! rows of S.

use second::{arrange, list, open_slots, place, s, screen, shelf_text};
use second::{visits_of_face, Listing};

const A: [i32; 12] = [1, 5, 4, 2, 4, 8, 7, 1, 6, 6, 2, 2];
const A_LIVE: [u8; 6] = [1; 6];
const A_ORDER: [u32; 6] = [1, 5, 0, 2, 3, 4];
const TWO_NORMALS: [i32; 4] = [1, 1, -1, 0];
const TWO_OFFSETS: [i64; 2] = [7, -6];
const TWO_CLOSED: [u8; 2] = [0, 0];

/// Arranges these points, which must be done, and gives the order.
fn arranged(k: usize, points: &[i32]) -> Vec<u32> {
    let n = points.len() / k;
    let (live, mut order) = (vec![1; n], vec![77; n]);
    assert_eq!(arrange(k, n, points, &live, &mut order).code, 0);
    assert_eq!(arrange(k, n, points, &live, &mut order).already, 1);
    order
}

/// Lists a arranged shelf: the numbers of the answer and the list.
fn listed(k: usize, points: &[i32], normals: &[i32], offsets: &[i64]) -> (Listing, Vec<u32>) {
    let order = arranged(k, points);
    let (n, h) = (order.len(), offsets.len());
    let (marks, mut places) = (vec![0; h], vec![88; n]);
    let answer = list(
        k,
        n,
        h,
        points,
        &vec![1; n],
        &order,
        normals,
        offsets,
        &marks,
        &mut places,
    );
    (answer, places)
}

/// A done answer.
fn done(inside: u32, outside: u32, visits: u32) -> Listing {
    Listing {
        code: 0,
        inside,
        outside,
        visits,
    }
}

/// Example 1.
#[test]
fn example_1_order_of_a() {
    assert_eq!(arranged(2, &A), A_ORDER);
}

/// Example 2, and the box of slot 0 that alone is settled.
#[test]
fn example_2_two_faces() {
    let (answer, places) = listed(2, &A, &TWO_NORMALS, &TWO_OFFSETS);
    assert_eq!(answer, done(2, 4, 5));
    assert_eq!(places, [2, 4, 3, 0, 5, 1]);
    let open = open_slots(
        2,
        6,
        2,
        &A,
        &A_LIVE,
        &A_ORDER,
        &TWO_NORMALS,
        &TWO_OFFSETS,
        &TWO_CLOSED,
    );
    assert_eq!(open, Ok(vec![false, true, true, true, true, true]));
    let shelf = second::shelf::Shelf {
        k: 2,
        points: &A,
        slots: &A_ORDER,
    };
    let root = second::visits::root_box(&shelf).unwrap();
    let bx = second::visits::branch_box(&shelf, &root, 0);
    assert_eq!((bx.least, bx.greatest), (vec![1, 1], vec![4, 2]));
}

/// Example 2 as the program prints it.
#[test]
fn example_2_as_text() {
    let input = b"2 6 2\n1 5\n4 2\n4 8\n7 1\n6 6\n2 2\n1 1 7\n-1 0 -6\n";
    let output = b"order 1 5 0 2 3 4\ncount 2 4 5\nlist 2 4 3 0 5 1\n";
    assert_eq!(shelf_text(input), output);
}

/// Example 3.
#[test]
fn example_3_one_square_face() {
    let (answer, places) = listed(2, &A, &[1, 0], &[5]);
    assert_eq!(answer, done(2, 4, 3));
    assert_eq!(places, [3, 4, 2, 0, 5, 1]);
    assert_eq!(
        visits_of_face(2, 6, &A, &A_LIVE, &A_ORDER, &[1, 0], 5, 0),
        Ok(3)
    );
}

/// Example 4.
#[test]
fn example_4_all_inside_or_outside() {
    assert_eq!(listed(2, &A, &[1, 0], &[1]).0, done(6, 0, 0));
    assert_eq!(listed(2, &A, &[1, 0], &[8]).0, done(0, 6, 0));
}

/// Example 5.
#[test]
fn example_5_points_on_the_face_are_inside() {
    let (answer, places) = listed(2, &A, &[1, 1], &[6]);
    let inside = &places[..answer.inside as usize];
    assert!(inside.contains(&0) && inside.contains(&1));
    assert_eq!(place(2, 1, &A[0..2], &[1, 1], &[6], &[0]).inside, 1);
    assert_eq!(place(2, 1, &A[2..4], &[1, 1], &[6], &[0]).inside, 1);
}

/// Example 6.
#[test]
fn example_6_no_faces() {
    let (answer, places) = listed(2, &A, &[], &[]);
    assert_eq!(answer, done(6, 0, 0));
    assert_eq!(places, A_ORDER);
}

/// Example 7.
#[test]
fn example_7_bound_reached() {
    assert_eq!(arranged(1, &[0, 10]), [0, 1]);
    assert_eq!(listed(1, &[0, 10], &[1], &[5]).0, done(1, 1, 2));
    assert_eq!(s(2, 1), 2);
}

/// Example 8.
#[test]
fn example_8_ties() {
    assert_eq!(arranged(1, &[3, 3, 3]), [0, 1, 2]);
    let answer = screen(1, 3, 0, &[3, 3, 3], &[1; 3], &[1, 0, 2], &[], &[], &[]);
    assert_eq!(answer.code, 9);
    let mut order = [1, 0, 2];
    let answer = arrange(1, 3, &[3, 3, 3], &[1; 3], &mut order);
    assert_eq!((answer.code, answer.already, order), (0, 0, [0, 1, 2]));
}

/// Example 9.
#[test]
fn example_9_one_point() {
    let (answer, places) = listed(2, &[4, 2], &TWO_NORMALS, &TWO_OFFSETS);
    assert_eq!((answer, places), (done(0, 1, 0), vec![0]));
    let placing = place(2, 2, &[4, 2], &TWO_NORMALS, &TWO_OFFSETS, &TWO_CLOSED);
    assert_eq!((placing.code, placing.inside), (0, 0));
}

/// Example 10.
#[test]
fn example_10_dimension_and_count() {
    for (k, code) in [(0, 1), (1, 0), (4, 0), (5, 1)] {
        assert_eq!(
            arrange(k, 2, &vec![0; 2 * k], &[1; 2], &mut [9, 9]).code,
            code
        );
        let points = vec![0; 2 * k];
        let answer = list(
            k,
            2,
            0,
            &points,
            &[1; 2],
            &[0, 1],
            &[],
            &[],
            &[],
            &mut [9, 9],
        );
        assert_eq!(answer.code, code);
        assert_eq!(place(k, 0, &points[..k], &[], &[], &[]).code, code);
        let answer = screen(k, 2, 0, &points, &[1; 2], &[0, 1], &[], &[], &[]);
        assert_eq!(answer.code, code);
    }
    let mut order = vec![0; 65_536];
    let answer = arrange(1, 65_536, &vec![0; 65_536], &vec![1; 65_536], &mut order);
    assert_eq!(answer.code, 2);
}

/// Example 11.
#[test]
fn example_11_coordinate_and_component() {
    assert_eq!(arrange(1, 1, &[32_767], &[1], &mut [0]).code, 0);
    assert_eq!(arrange(1, 1, &[32_768], &[1], &mut [0]).code, 5);
    assert_eq!(place(1, 1, &[0], &[-32_767], &[0], &[0]).code, 0);
    assert_eq!(place(1, 1, &[0], &[-32_768], &[0], &[0]).code, 8);
}

/// Example 12.
#[test]
fn example_12_zero_normal() {
    assert_eq!(listed(2, &A, &[0, 0], &[0]).0, done(6, 0, 0));
    assert_eq!(listed(2, &A, &[0, 0], &[1]).0, done(0, 6, 0));
}

/// The rows of S.
#[test]
fn rows_of_s() {
    assert_eq!(s(6, 2), 5);
    assert_eq!(s(65_535, 1), 16);
    assert_eq!(s(65_535, 2), 765);
    assert_eq!(s(65_535, 3), 3_411);
    assert_eq!(s(65_535, 4), 8_775);
}

/// The ends of S: nothing for no points, and no overflow at the greatest n.
#[test]
fn ends_of_s() {
    assert_eq!(s(0, 2), 0);
    assert_eq!(s(1, 3), 1);
    assert_eq!(s(usize::MAX, 0), 0);
    assert_eq!(s(u64::MAX as usize, usize::MAX), u64::MAX);
}

/// Square faces, the zero normal among them.
#[test]
fn square_faces() {
    assert!(second::is_square(&[0, 0, 0]));
    assert!(second::is_square(&[0, -5, 0]));
    assert!(!second::is_square(&[1, 0, 1]));
}
