//! Every refusal of every call, one fault at a time and two and three at once.

use compare::calls;
use compare::cases;
use compare::chance::Chance;
use compare::faces;
use compare::faults::{first, first_in_order, last, two_or_three};
use compare::lent::{shorten, Lent};
use compare::seen::Seen;
use compare::shelves;
use second::live::{DEAD, LIVE};
use second::region::{CLOSED, OPEN};

/// The calls, as parts of a sum.
const ARRANGE: u8 = 1;
const LIST: u8 = 2;
const PLACE: u8 = 4;
const SCREEN: u8 = 8;
const EXPLAIN: u8 = 16;
const SHELF: u8 = ARRANGE | LIST | SCREEN | EXPLAIN;
const REGION: u8 = LIST | PLACE | SCREEN | EXPLAIN;
const ORDER: u8 = LIST | SCREEN | EXPLAIN;

/// Each call: its name, its part of the sum, and the numbers that it may refuse with, in the order of its tests.
const CALLS: [(&str, u8, &[u32]); 5] = [
    ("arrange", ARRANGE, &[1, 2, 3, 15, 4, 5]),
    ("list", LIST, &[1, 2, 3, 15, 4, 5, 6, 7, 8, 11, 9]),
    ("place", PLACE, &[1, 3, 5, 6, 7, 8, 11]),
    ("screen", SCREEN, &[1, 2, 3, 15, 4, 5, 6, 7, 8, 11, 9]),
    ("explain", EXPLAIN, &[1, 2, 3, 15, 4, 5, 6, 7, 8, 11, 9, 17]),
];

/// A fault: the number that it is refused with, the calls that refuse it, and how it is made.
type Fault = (u32, u8, fn(&mut Lent));

/// Every fault.
const FAULTS: [Fault; 49] = [
    (1, SHELF | PLACE, |lent| lent.k = 0),
    (1, SHELF | PLACE, |lent| lent.k = 5),
    (1, SHELF | PLACE, |lent| lent.k = usize::MAX),
    (2, SHELF, |lent| lent.n = 65_536),
    (2, SHELF, |lent| lent.n = usize::MAX),
    (3, SHELF, |lent| lent.points.push(0)),
    (3, SHELF, |lent| shorten(&mut lent.points)),
    (3, SHELF, |lent| lent.points.clear()),
    (3, PLACE, |lent| lent.point.push(0)),
    (3, PLACE, |lent| shorten(&mut lent.point)),
    (15, SHELF, |lent| lent.live.push(LIVE)),
    (15, SHELF, |lent| lent.live.push(DEAD)),
    (15, SHELF, |lent| shorten(&mut lent.live)),
    (15, SHELF, |lent| lent.live.clear()),
    (15, SHELF, |lent| first(&mut lent.live, 2)),
    (15, SHELF, |lent| last(&mut lent.live, 2)),
    (15, SHELF, |lent| last(&mut lent.live, 255)),
    (4, SHELF, |lent| lent.order.truncate(2)),
    (4, SHELF, |lent| lent.order.clear()),
    (4, LIST, |lent| lent.list.truncate(2)),
    (4, LIST, |lent| lent.list.clear()),
    (5, SHELF, |lent| first(&mut lent.points, 32_768)),
    (5, SHELF, |lent| last(&mut lent.points, -32_769)),
    (5, SHELF, |lent| last(&mut lent.points, i32::MAX)),
    (5, PLACE, |lent| first(&mut lent.point, -32_769)),
    (5, PLACE, |lent| last(&mut lent.point, i32::MIN)),
    (6, REGION, |lent| lent.h = 33),
    (6, REGION, |lent| lent.h = usize::MAX),
    (7, REGION, |lent| lent.normals.push(0)),
    (7, REGION, |lent| shorten(&mut lent.normals)),
    (7, REGION, |lent| lent.offsets.push(0)),
    (7, REGION, |lent| shorten(&mut lent.offsets)),
    (8, REGION, |lent| first(&mut lent.normals, -32_768)),
    (8, REGION, |lent| last(&mut lent.normals, 32_768)),
    (8, REGION, |lent| first(&mut lent.offsets, 8_589_934_593)),
    (8, REGION, |lent| last(&mut lent.offsets, i64::MIN)),
    (11, REGION, |lent| lent.marks.push(0)),
    (11, REGION, |lent| shorten(&mut lent.marks)),
    (11, REGION, |lent| lent.marks.clear()),
    (11, REGION, |lent| first(&mut lent.marks, 2)),
    (11, REGION, |lent| last(&mut lent.marks, 2)),
    (11, REGION, |lent| last(&mut lent.marks, 255)),
    (9, ORDER, |lent| lent.order.reverse()),
    (9, ORDER, |lent| first(&mut lent.order, 3)),
    (9, ORDER, |lent| first(&mut lent.order, u32::MAX)),
    (9, ORDER, |lent| {
        let number = lent.order.get(1).copied().unwrap_or(0);
        first(&mut lent.order, number)
    }),
    (17, EXPLAIN, |lent| lent.number = 3),
    (17, EXPLAIN, |lent| lent.number = 65_536),
    (17, EXPLAIN, |lent| lent.number = u32::MAX),
];

/// A right call: three points, two faces, and no place behind the last live number. Once both faces are closed, once the first is open, and
/// once there are two dead numbers, 1 and 3, among five.
fn right(chance: &mut Chance, k: usize) -> [Lent; 3] {
    let points = (0..3 * k).map(|i| (i * 7 % 5) as i32).collect();
    let mut lent = Lent::new(chance, k, points);
    lent.order.truncate(3);
    lent.list.truncate(3);
    let (normals, offsets) = faces::region(chance, k, &lent.points, 2);
    let closed = calls::shelf(&lent).with_faces(normals, offsets);
    let marked = closed.with_marks(vec![OPEN, CLOSED]);
    let live = vec![LIVE, DEAD, LIVE, DEAD, LIVE];
    let dead = calls::shelf(&shelves::among_dead(chance, &marked, live));
    [closed, marked, dead]
}

/// How often each call answers each of its numbers.
fn answers() -> Seen<(&'static str, u32)> {
    let numbers = |tests: &'static [u32]| [0].into_iter().chain(tests.iter().copied());
    let of_call = |(name, _, tests)| numbers(tests).map(move |number| (name, number));
    Seen::new(CALLS.into_iter().flat_map(of_call))
}

/// Compares all calls on a right call with these faults, and the numbers with that of the fault that is first in the call's
/// order.
fn refused(right: &Lent, faults: &[Fault], seen: &mut Seen<(&'static str, u32)>) {
    let mut lent = right.clone();
    for (_, _, make) in faults {
        make(&mut lent);
    }
    for (name, call, tests) in CALLS {
        let code = match call {
            ARRANGE => calls::arrange(&lent).0.code,
            LIST => calls::list(&lent).0.code,
            PLACE => calls::place(&lent).code,
            SCREEN => calls::screen(&lent).code,
            _ => calls::explain(&lent).code,
        };
        let concerned = faults.iter().filter(|(_, calls, _)| calls & call != 0);
        let numbers: Vec<u32> = concerned.map(|(number, _, _)| *number).collect();
        if let Some(number) = first_in_order(&numbers, tests) {
            assert_eq!(code, number, "{name} of {lent:?}");
        }
        seen.count((name, code));
    }
}

/// No fault, and each by itself.
#[test]
fn one_fault() {
    let mut seen = answers();
    cases::make("one fault", 40, |chance, case| {
        for right in right(chance, 1 + case % 4) {
            refused(&right, &[], &mut seen);
            for fault in FAULTS {
                refused(&right, &[fault], &mut seen);
            }
        }
    });
    seen.enough("one fault");
}

/// Every two and every three faults at once, in each dimension.
#[test]
fn two_or_three_faults() {
    let mut seen = answers();
    cases::make("two or three faults", 4, |chance, case| {
        for right in right(chance, 1 + case % 4) {
            two_or_three(&FAULTS, |some| refused(&right, some, &mut seen));
        }
    });
    seen.enough("two or three faults");
}
