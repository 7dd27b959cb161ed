//! The screen: shelves worked out by hand, and random ones with points and regions of every kind.

use compare::calls;
use compare::cases;
use compare::chance::Chance;
use compare::lent::Lent;
use compare::seen::{Case, Seen};
use compare::shelves;
use compare::stock::Stock;
use hornherder::raw::Screening;

/// How many shelves there are, as many of each kind of points.
const SHELVES: usize = 600 * Stock::ALL.len();

/// Every case.
const CASES: [Case<Screening>; 5] = [
    ("found", |answer| answer.found == 1),
    ("found with no visit", |answer| {
        answer.found == 1 && answer.visits == 0
    }),
    ("found number 0", |answer| {
        answer.found == 1 && answer.number == 0
    }),
    ("none", |answer| answer.found == 0),
    ("none with visits", |answer| {
        answer.found == 0 && answer.visits > 0
    }),
];

/// Compares the screen on random shelves, each with three regions, and asks that every case of the answer comes up.
#[test]
fn random_shelves() {
    let mut seen = Seen::of(&CASES);
    cases::make("screens", SHELVES, |chance, case| {
        let shelf = shelves::in_turn(chance, case);
        for _ in 0..3 {
            let answer = calls::screen(&shelves::region(chance, &shelf));
            assert_eq!(answer.code, 0);
            seen.look(&CASES, &answer);
        }
    });
    seen.enough("screens");
}

/// The six points of shelf A stand in the order 1 5 0 2 3 4. Of the open slots those to the right of the found one are not
/// counted, be they below it in the tree or above it.
#[test]
fn shelf_a() {
    let points = vec![1, 5, 4, 2, 4, 8, 7, 1, 6, 6, 2, 2];
    let a = calls::shelf(&Lent::new(&mut Chance::new(cases::SEED), 2, points));
    let screened = |normals: &[i32], offsets: &[i64]| {
        let answer = calls::screen(&a.with_faces(normals.to_vec(), offsets.to_vec()));
        (answer.found, answer.number, answer.visits)
    };
    assert_eq!(screened(&[1, 1, -1, 0], &[7, -6]), (1, 2, 3)); // slots 1 to 5 are open, slot 3 is found
    assert_eq!(screened(&[1, 0], &[5]), (1, 3, 2)); // slots 3, 4 and 5 are open, slot 4 is found
    assert_eq!(screened(&[1, 0], &[1]), (1, 1, 0)); // the whole shelf is inside
    assert_eq!(screened(&[], &[]), (1, 1, 0));
    assert_eq!(screened(&[1, 0], &[8]), (0, 0, 0)); // the whole shelf is outside
    assert_eq!(screened(&[1, 1], &[13]), (0, 0, 3)); // slots 3, 4 and 5 are open, and none is inside
}
