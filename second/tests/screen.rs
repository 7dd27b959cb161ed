//! The screen, every point live: worked examples, and random shelves against list
//! and the one-point test.

use second::{arrange, list, open_slots, place, screen, Listing, Screening};

const A: [i32; 12] = [1, 5, 4, 2, 4, 8, 7, 1, 6, 6, 2, 2];
const TWO_NORMALS: [i32; 4] = [1, 1, -1, 0];
const TWO_OFFSETS: [i64; 2] = [7, -6];

/// Arranges these points, which must be done, and gives the order.
fn arranged(k: usize, points: &[i32]) -> Vec<u32> {
    let n = points.len() / k;
    let mut order = vec![77; n];
    assert_eq!(arrange(k, n, points, &vec![1; n], &mut order).code, 0);
    order
}

/// Screens a arranged shelf, every face closed.
fn screened(k: usize, points: &[i32], normals: &[i32], offsets: &[i64]) -> Screening {
    let order = arranged(k, points);
    let (n, h) = (order.len(), offsets.len());
    let (live, marks) = (vec![1; n], vec![0; h]);
    screen(k, n, h, points, &live, &order, normals, offsets, &marks)
}

/// Lists a arranged shelf, every face closed: the numbers of the answer and the
/// list.
fn listed(k: usize, points: &[i32], normals: &[i32], offsets: &[i64]) -> (Listing, Vec<u32>) {
    let order = arranged(k, points);
    let (n, h) = (order.len(), offsets.len());
    let (marks, mut places) = (vec![0; h], vec![88; n]);
    let answer = list(
        k,
        n,
        h,
        points,
        &vec![1; n],
        &order,
        normals,
        offsets,
        &marks,
        &mut places,
    );
    assert_eq!(answer.code, 0);
    (answer, places)
}

/// A done answer with this number found.
fn found(number: u32, visits: u32) -> Screening {
    Screening {
        code: 0,
        found: 1,
        number,
        visits,
    }
}

/// A done answer with none found.
fn none(visits: u32) -> Screening {
    Screening {
        visits,
        ..Screening::default()
    }
}

/// Shelf A with its two faces. The inside list is 2 4; number 2 stands in slot 3.
/// Slots 1 to 5 are open, and of these slots 4 and 5 are to the right.
#[test]
fn two_faces() {
    let answer = screened(2, &A, &TWO_NORMALS, &TWO_OFFSETS);
    assert_eq!(answer, found(2, 3));
    assert_eq!(listed(2, &A, &TWO_NORMALS, &TWO_OFFSETS).0.visits, 5);
}

/// Shelf A with face (1, 0), m 5. Number 3 stands in slot 4. Slots 3, 4 and 5
/// are open; slot 5, the node above slot 4, is to the right and is not counted.
#[test]
fn open_parent_to_the_right() {
    assert_eq!(screened(2, &A, &[1, 0], &[5]), found(3, 2));
    assert_eq!(listed(2, &A, &[1, 0], &[5]).0.visits, 3);
}

/// Shelf A with face (1, 1), m 6. Number 1 lies on the face, in slot 0. All six
/// slots are open; slots 1 and 3, the nodes above slot 0, are not counted.
#[test]
fn open_root_to_the_right() {
    assert_eq!(screened(2, &A, &[1, 1], &[6]), found(1, 1));
    assert_eq!(listed(2, &A, &[1, 1], &[6]).0.visits, 6);
}

/// Shelf A with face (-1, 0), m -3. Number 5 stands in slot 1. Slots 0 to 3 are
/// open; the open slot 0 is outside and to the left, and is counted.
#[test]
fn open_child_to_the_left() {
    assert_eq!(screened(2, &A, &[-1, 0], &[-3]), found(5, 2));
    assert_eq!(listed(2, &A, &[-1, 0], &[-3]).0.visits, 4);
}

/// Shelf A all inside or all outside: the root is settled, no visits.
#[test]
fn settled_root() {
    assert_eq!(screened(2, &A, &[1, 0], &[1]), found(1, 0));
    assert_eq!(screened(2, &A, &[1, 0], &[8]), none(0));
    assert_eq!(screened(2, &A, &[0, 0], &[0]), found(1, 0));
    assert_eq!(screened(2, &A, &[0, 0], &[1]), none(0));
}

/// Shelf A with face (1, 1), m 13. The greatest sum of a point is 12, but the
/// boxes of slots 3, 4 and 5 reach 15, 13 and 15: all three are counted.
#[test]
fn none_found_counts_all_open_slots() {
    assert_eq!(screened(2, &A, &[1, 1], &[13]), none(3));
    assert_eq!(listed(2, &A, &[1, 1], &[13]).0.visits, 3);
}

/// With no faces the number in slot 0 is found; on the empty shelf none is.
#[test]
fn no_faces_and_no_points() {
    assert_eq!(screened(2, &A, &[], &[]), found(1, 0));
    assert_eq!(screened(1, &[], &[], &[]), none(0));
    assert_eq!(screened(4, &[], &[1, 2, 3, 4], &[5]), none(0));
}

/// One point: found or not, its box is a single corner and always settled.
#[test]
fn one_point() {
    assert_eq!(screened(2, &[4, 2], &TWO_NORMALS, &TWO_OFFSETS), none(0));
    assert_eq!(
        screened(2, &[5, 2], &TWO_NORMALS, &TWO_OFFSETS),
        found(0, 0)
    );
}

/// Two points of one dimension, both slots open from 0 to 10.
#[test]
fn two_points() {
    assert_eq!(screened(1, &[0, 10], &[1], &[5]), found(1, 2));
    assert_eq!(screened(1, &[0, 10], &[-1], &[-5]), found(0, 1));
}

/// Seven points 0 to 6 with face -1, m -3: the left branch, x 0..3, is settled
/// and slots 3, 4 and 5 are open. Number 0 found without a visit is not "none".
#[test]
fn number_0_found_without_a_visit() {
    let points = [0, 1, 2, 3, 4, 5, 6];
    assert_eq!(screened(1, &points, &[-1], &[-3]), found(0, 0));
    assert_eq!(listed(1, &points, &[-1], &[-3]).0.visits, 3);
}

/// Seven points 0 to 6 with face 1, m 6: the found slot is the last, so that
/// all open slots are counted: 3, 5 and 6.
#[test]
fn last_slot_found() {
    let points = [0, 1, 2, 3, 4, 5, 6];
    assert_eq!(screened(1, &points, &[1], &[6]), found(6, 3));
    assert_eq!(listed(1, &points, &[1], &[6]).0.visits, 3);
}

/// The found slot itself is settled (slot 3, box x 4..7, y 1..6). Slots 0, 1 and
/// 2 before it are open, and so is its parent, slot 4, to the right.
#[test]
fn found_slot_settled() {
    let points = [1, 1, 2, 2, 4, 8, 7, 1, 6, 6];
    let (normals, offsets) = ([1, 0, 0, -1], [4, -6]);
    assert_eq!(arranged(2, &points), [0, 1, 2, 3, 4]);
    let open = open_slots(
        2,
        5,
        2,
        &points,
        &[1; 5],
        &[0, 1, 2, 3, 4],
        &normals,
        &offsets,
        &[0, 0],
    );
    assert_eq!(open, Ok(vec![true, true, true, false, true]));
    assert_eq!(screened(2, &points, &normals, &offsets), found(3, 3));
}

/// Later places of the order are not read.
#[test]
fn later_places_are_not_read() {
    for later in [0, 1, 2, u32::MAX] {
        let answer = screen(1, 2, 1, &[0, 10], &[1; 2], &[0, 1, later], &[1], &[5], &[0]);
        assert_eq!(answer, found(1, 2));
    }
}

/// So many numbers that look random, from `-most` to `most`.
fn thrown(state: &mut u64, count: usize, most: i64) -> Vec<i64> {
    let next = |_| {
        *state ^= *state << 13;
        *state ^= *state >> 7;
        *state ^= *state << 17;
        (*state % (2 * most + 1) as u64) as i64 - most
    };
    (0..count).map(next).collect()
}

/// Goes through the slots from the lowest, with the one-point test at each, and
/// counts the open ones until a point is inside.
fn slot_by_slot(k: usize, points: &[i32], normals: &[i32], offsets: &[i64]) -> Screening {
    let order = arranged(k, points);
    let (n, h) = (order.len(), offsets.len());
    let (live, marks) = (vec![1; n], vec![0; h]);
    let open = open_slots(k, n, h, points, &live, &order, normals, offsets, &marks).unwrap();
    let mut visits = 0;
    for (slot, &number) in order.iter().enumerate() {
        visits += u32::from(open[slot]);
        let point = points.chunks(k).nth(number as usize).unwrap();
        if place(k, h, point, normals, offsets, &marks).inside == 1 {
            return found(number, visits);
        }
    }
    none(visits)
}

/// On random shelves the screen is the first entry of the inside list, "none" is
/// an inside count of zero, and the visits are those slot by slot.
#[test]
fn random_shelves() {
    let mut state = 59;
    let narrow = |row: Vec<i64>| row.into_iter().map(|x| x as i32).collect::<Vec<_>>();
    for round in 0..600 {
        let (k, n, h) = (1 + round % 4, round % 37, round % 5);
        let points = narrow(thrown(&mut state, k * n, 9));
        let normals = narrow(thrown(&mut state, k * h, 3));
        let offsets = thrown(&mut state, h, 25);
        let answer = screened(k, &points, &normals, &offsets);
        assert_eq!(answer, slot_by_slot(k, &points, &normals, &offsets));
        let (listing, places) = listed(k, &points, &normals, &offsets);
        let first = places[..listing.inside as usize].first().copied();
        assert_eq!(answer.found == 1, first.is_some());
        assert_eq!(answer.number, first.unwrap_or(0));
        assert!(answer.visits <= listing.visits);
        assert!(answer.found == 1 || answer.visits == listing.visits);
    }
}
