//! The twelve given examples, with the library itself.

use compare::calls;
use compare::cases;
use compare::chance::Chance;
use compare::lent::Lent;

const A: [i32; 12] = [1, 5, 4, 2, 4, 8, 7, 1, 6, 6, 2, 2];

/// A shelf of these points, arranged by the library.
fn shelf(k: usize, points: &[i32]) -> Lent {
    let mut chance = Chance::new(cases::SEED);
    calls::shelf(&Lent::new(&mut chance, k, points.to_vec()))
}

/// The counts and the list of a region on a shelf.
fn listed(shelf: &Lent, normals: &[i32], offsets: &[i64]) -> ([u32; 3], Vec<u32>) {
    let call = shelf.with_faces(normals.to_vec(), offsets.to_vec());
    let (answer, mut list) = calls::list(&call);
    assert_eq!(answer.code, 0);
    list.truncate(call.n);
    ([answer.inside, answer.outside, answer.visits], list)
}

/// Examples 1 to 6: the shelf A.
#[test]
fn shelf_a() {
    let a = shelf(2, &A);
    assert_eq!(a.order[..6], [1, 5, 0, 2, 3, 4]);
    let two = listed(&a, &[1, 1, -1, 0], &[7, -6]);
    assert_eq!(two, ([2, 4, 5], vec![2, 4, 3, 0, 5, 1]));
    let three = listed(&a, &[1, 0], &[5]);
    assert_eq!(three, ([2, 4, 3], vec![3, 4, 2, 0, 5, 1]));
    assert_eq!(listed(&a, &[1, 0], &[1]).0, [6, 0, 0]);
    assert_eq!(listed(&a, &[1, 0], &[8]).0, [0, 6, 0]);
    let (counts, list) = listed(&a, &[1, 1], &[6]);
    assert!(list[..counts[0] as usize].contains(&0) && list[..counts[0] as usize].contains(&1));
    assert_eq!(listed(&a, &[], &[]), ([6, 0, 0], vec![1, 5, 0, 2, 3, 4]));
}

/// Examples 7 to 9: the bound attained, ties, and one point.
#[test]
fn small_shelves() {
    let two = shelf(1, &[0, 10]);
    assert_eq!(two.order[..2], [0, 1]);
    assert_eq!(listed(&two, &[1], &[5]).0[2], 2);
    let ties = shelf(1, &[3, 3, 3]);
    assert_eq!(ties.order[..3], [0, 1, 2]);
    let wrong = ties.with_order(&[1, 0, 2]);
    assert_eq!(calls::list(&wrong).0.code, 9);
    assert_eq!(calls::arrange(&wrong).0.already, 0);
    let one = shelf(2, &[4, 2]);
    assert_eq!(listed(&one, &[1, 1, -1, 0], &[7, -6]), ([0, 1, 0], vec![0]));
    let region = one.with_faces(vec![1, 1, -1, 0], vec![7, -6]);
    let placing = calls::place(&region); // below the first face by 1, above the second by 2
    assert_eq!((placing.inside, placing.face, placing.margin), (0, 0, -1));
}

/// Example 10: k 0 and 5 are refused, 1 and 4 pass, and n 65,536 is refused.
#[test]
fn dimension_and_count() {
    for (k, code) in [(0, 1), (1, 0), (4, 0), (5, 1)] {
        let mut lent = shelf(1, &[0, 0]);
        lent.k = k;
        lent.points = vec![0; 2 * k];
        lent.point = vec![0; k];
        assert_eq!(calls::arrange(&lent).0.code, code);
        assert_eq!(calls::list(&lent).0.code, code);
        assert_eq!(calls::place(&lent).code, code);
    }
    let many = Lent::new(&mut Chance::new(cases::SEED), 1, vec![0; 65_536]);
    assert_eq!(calls::arrange(&many).0.code, 2);
    assert_eq!(calls::list(&many).0.code, 2);
}

/// Example 11: coordinate 32,767 passes, 32,768 is 5; component -32,767 passes, -32,768 is 8.
#[test]
fn coordinate_and_component() {
    let one = shelf(1, &[32_767]);
    let mut over = one.clone();
    over.points[0] = 32_768;
    over.point[0] = 32_768;
    assert_eq!(calls::arrange(&over).0.code, 5);
    assert_eq!(calls::place(&over).code, 5);
    for (component, code) in [(-32_767, 0), (-32_768, 8)] {
        let call = one.with_faces(vec![component], vec![0]);
        assert_eq!(calls::list(&call).0.code, code);
        assert_eq!(calls::place(&call).code, code);
    }
}

/// Example 12: a zero normal with m 0 holds all, with m 1 none, and nothing is visited.
#[test]
fn zero_normal() {
    let a = shelf(2, &A);
    assert_eq!(listed(&a, &[0, 0], &[0]).0, [6, 0, 0]);
    assert_eq!(listed(&a, &[0, 0], &[1]).0, [0, 6, 0]);
}
