//! The plain scan: worked examples, refusals, and random shelves with dead numbers
//! against list and against a plain count of the face tests.

use second::{arrange, list, scan, Listing, Scanning};

const A: [i32; 12] = [1, 5, 4, 2, 4, 8, 7, 1, 6, 6, 2, 2];

/// The arguments of scan, with what the list buffer holds before.
#[derive(Clone)]
struct Lent {
    k: usize,
    n: usize,
    h: usize,
    points: Vec<i32>,
    live: Vec<u8>,
    order: Vec<u32>,
    normals: Vec<i32>,
    offsets: Vec<i64>,
    marks: Vec<u8>,
    list: Vec<u32>,
}

/// The call for this shelf, arranged, which must be done, and this region, every
/// face closed. Order and list have more places than they need.
fn lent(k: usize, points: &[i32], live: &[u8], normals: &[i32], offsets: &[i64]) -> Lent {
    let n = live.len();
    let mut order = vec![70; n + 1];
    assert_eq!(arrange(k, n, points, live, &mut order).code, 0);
    Lent {
        k,
        n,
        h: offsets.len(),
        points: points.to_vec(),
        live: live.to_vec(),
        order,
        normals: normals.to_vec(),
        offsets: offsets.to_vec(),
        marks: vec![0; offsets.len()],
        list: vec![88; n + 1],
    }
}

impl Lent {
    /// The answer of scan, and its buffer afterwards.
    fn scanned(&self) -> (Scanning, Vec<u32>) {
        let mut buffer = self.list.clone();
        let answer = scan(
            self.k,
            self.n,
            self.h,
            &self.points,
            &self.live,
            &self.order,
            &self.normals,
            &self.offsets,
            &self.marks,
            &mut buffer,
        );
        (answer, buffer)
    }

    /// The answer of list, and its buffer afterwards.
    fn listed(&self) -> (Listing, Vec<u32>) {
        let mut buffer = self.list.clone();
        let answer = list(
            self.k,
            self.n,
            self.h,
            &self.points,
            &self.live,
            &self.order,
            &self.normals,
            &self.offsets,
            &self.marks,
            &mut buffer,
        );
        (answer, buffer)
    }

    /// Asks that scan refuses with this number, with zeros and nothing written,
    /// and that list refuses with the same.
    fn refuses(&self, code: u32) {
        let refusal = Scanning {
            code,
            ..Scanning::default()
        };
        assert_eq!(self.scanned(), (refusal, self.list.clone()));
        assert_eq!(self.listed().0.code, code);
    }

    /// How many numbers are live.
    fn v(&self) -> u32 {
        self.live.iter().map(|&byte| u32::from(byte)).sum()
    }
}

/// A done answer.
fn done(inside: u32, outside: u32, tests: u32) -> Scanning {
    Scanning {
        code: 0,
        inside,
        outside,
        tests,
    }
}

/// Shelf A with the two faces of example 2: points 0, 1 and 5 are below the first,
/// one test each, the other three have two.
#[test]
fn two_faces() {
    let a = lent(2, &A, &[1; 6], &[1, 1, -1, 0], &[7, -6]);
    let places = vec![2, 4, 3, 0, 5, 1, 88];
    assert_eq!(a.scanned(), (done(2, 4, 9), places));
}

/// The same faces changed over: the lists stay, and only point 3 stops at the
/// first face.
#[test]
fn two_faces_changed_over() {
    let a = lent(2, &A, &[1; 6], &[-1, 0, 1, 1], &[-6, 7]);
    let places = vec![2, 4, 3, 0, 5, 1, 88];
    assert_eq!(a.scanned(), (done(2, 4, 11), places));
}

/// Shelf A without number 3, (7, 1), and the two faces: a dead point is not tested.
#[test]
fn a_without_number_3() {
    let a = lent(2, &A, &[1, 1, 1, 0, 1, 1], &[1, 1, -1, 0], &[7, -6]);
    let places = vec![4, 2, 1, 0, 5, 88, 88];
    assert_eq!(a.scanned(), (done(2, 3, 7), places));
}

/// With no faces all are inside, in slot order, and no test is made.
#[test]
fn no_faces() {
    let a = lent(2, &A, &[1; 6], &[], &[]);
    assert_eq!(a.scanned(), (done(6, 0, 0), vec![1, 5, 0, 2, 3, 4, 88]));
}

/// Zero normals: with m 0 every point passes every face, with m 1 every point
/// stops there, wherever the face stands.
#[test]
fn zero_normals() {
    let scanned = |offsets: &[i64]| {
        let normals = vec![0; 2 * offsets.len()];
        lent(2, &A, &[1; 6], &normals, offsets).scanned().0
    };
    assert_eq!(scanned(&[0, 0, 0]), done(6, 0, 18));
    assert_eq!(scanned(&[1, 0, 0]), done(0, 6, 6));
    assert_eq!(scanned(&[0, 1, 0]), done(0, 6, 12));
    assert_eq!(scanned(&[0, 0, 1]), done(0, 6, 18));
    assert_eq!(scanned(&[1, 1, 1]), done(0, 6, 6));
    assert_eq!(scanned(&[0; 32]), done(6, 0, 192));
}

/// A point on a face passes it if closed and stops there if open.
#[test]
fn point_on_a_face() {
    let mut one = lent(1, &[5], &[1], &[1, -1], &[5, -5]);
    for (marks, answer) in [
        ([0, 0], done(1, 0, 2)),
        ([0, 1], done(0, 1, 2)),
        ([1, 0], done(0, 1, 1)),
        ([1, 1], done(0, 1, 1)),
    ] {
        one.marks = marks.to_vec();
        assert_eq!(one.scanned().0, answer);
    }
}

/// With no live number nothing is listed and no test is made, however many are
/// dead, and both buffers may be empty.
#[test]
fn empty_shelves() {
    for n in [0, 1, 5] {
        for k in 1..=4 {
            let mut empty = lent(k, &vec![i32::MIN; k * n], &vec![0; n], &vec![1; k], &[5]);
            assert_eq!(empty.scanned(), (done(0, 0, 0), vec![88; n + 1]));
            (empty.order, empty.list) = (vec![], vec![]);
            assert_eq!(empty.scanned(), (done(0, 0, 0), vec![]));
        }
    }
}

/// A shelf of seven numbers of which three are dead, the first and the last among
/// them, and one slanting face.
fn four_of_seven() -> Lent {
    let points = [-9, -9, 1, 5, 4, 2, 9, 9, 4, 8, 6, 6, 9, 9];
    lent(2, &points, &[0, 1, 1, 0, 1, 1, 0], &[1, 1], &[7])
}

/// A change that brings one refusal about.
type Break = (u32, fn(&mut Lent));

/// One break for each number, in the call's order from the last test to the
/// first: 9, 11, 8 down to 4, 15, then 3 down to 1. Each later one must hide those
/// before it.
const BREAKS: [Break; 11] = [
    (9, |lent| lent.order.swap(0, 1)),
    (11, |lent| lent.marks[0] = 2),
    (8, |lent| lent.offsets[0] = i64::MAX),
    (7, |lent| lent.normals.push(0)),
    (6, |lent| lent.h = 33),
    (5, |lent| lent.points[2] = 32_768),
    (4, |lent| lent.list.truncate(3)),
    (15, |lent| lent.live[0] = 2),
    (3, |lent| lent.points.push(0)),
    (2, |lent| lent.n = 65_536),
    (1, |lent| lent.k = 5),
];

/// Each break alone: its own number.
#[test]
fn refuses_each_alone() {
    assert_eq!(four_of_seven().scanned().0.code, 0);
    for (code, change) in BREAKS {
        let mut lent = four_of_seven();
        change(&mut lent);
        lent.refuses(code);
    }
}

/// Any two breaks together: the number that comes first in the call's order.
#[test]
fn refuses_the_first_of_two() {
    for (place, (_, late)) in BREAKS.into_iter().enumerate() {
        for (code, early) in BREAKS.into_iter().skip(place + 1) {
            let mut lent = four_of_seven();
            late(&mut lent);
            early(&mut lent);
            lent.refuses(code);
        }
    }
}

/// All breaks heaped up from the last test to the first: always the first in the
/// call's order so far.
#[test]
fn refuses_in_its_order() {
    let mut lent = four_of_seven();
    for (code, change) in BREAKS {
        change(&mut lent);
        lent.refuses(code);
    }
}

/// Order and list exactly as long as v asks for are done, either of them one place
/// shorter is 4; later places of a longer list stay.
#[test]
fn places_for_the_live_numbers() {
    let mut exact = four_of_seven();
    assert_eq!(exact.scanned().1[4..], [88; 4]);
    exact.order.truncate(4);
    exact.list.truncate(4);
    assert_eq!(exact.scanned().0.code, 0);
    let mut short = exact.clone();
    short.order.truncate(3);
    short.refuses(4);
    let mut short = exact.clone();
    short.list.truncate(3);
    short.refuses(4);
}

/// A damaged place of the order: a dead number, a live one a second time, or one
/// not below n. All are 9, in every slot, though the points alone would do.
#[test]
fn damaged_orders() {
    for slot in 0..4 {
        for number in (0..=8).chain([u32::MAX]) {
            let mut lent = four_of_seven();
            if lent.order[slot] != number {
                lent.order[slot] = number;
                lent.refuses(9);
            }
        }
    }
}

/// The greatest numbers of all neither overflow nor panic.
#[test]
fn greatest_numbers_are_refused() {
    let most = usize::MAX;
    let code = |k, n, h| scan(k, n, h, &[], &[], &[], &[], &[], &[], &mut []).code;
    assert_eq!(code(most, most, most), 1);
    assert_eq!(code(4, most, most), 2);
    assert_eq!(code(4, 0, most), 6);
    assert_eq!(code(4, 0, 0), 0);
}

/// So many numbers that look random, from `least` to `greatest`.
fn thrown(state: &mut u64, count: usize, least: i64, greatest: i64) -> Vec<i64> {
    let next = |_| {
        *state ^= *state << 13;
        *state ^= *state >> 7;
        *state ^= *state << 17;
        least + (*state % (greatest - least + 1) as u64) as i64
    };
    (0..count).map(next).collect()
}

/// The same numbers in 32 bits.
fn narrow(row: Vec<i64>) -> Vec<i32> {
    row.into_iter().map(|x| x as i32).collect()
}

/// The same numbers in a byte.
fn bytes(row: Vec<i64>) -> Vec<u8> {
    row.into_iter().map(|x| x as u8).collect()
}

/// Points with small coordinates, so that points on faces are frequent; those of
/// the dead numbers are anything that 32 bits hold.
fn thrown_points(state: &mut u64, k: usize, live: &[u8]) -> Vec<i32> {
    let point = |&byte: &u8| match byte {
        1 => narrow(thrown(state, k, -7, 7)),
        _ => narrow(thrown(state, k, i32::MIN.into(), i32::MAX.into())),
    };
    live.iter().flat_map(point).collect()
}

/// Random cases of 0 to 30 numbers, about a third of them dead, and 0 to 6 faces,
/// closed and open.
fn cases() -> Vec<Lent> {
    let mut state = 173;
    let case = |round: usize| {
        let (k, n, h) = (1 + round / 2 % 4, round % 31, round % 7);
        let throws = thrown(&mut state, n, 0, 2);
        let live = bytes(throws.into_iter().map(|x| x.min(1)).collect());
        let points = thrown_points(&mut state, k, &live);
        let normals = narrow(thrown(&mut state, k * h, -3, 3));
        let offsets = thrown(&mut state, h, -16, 4);
        Lent {
            marks: bytes(thrown(&mut state, h, 0, 1)),
            ..lent(k, &points, &live, &normals, &offsets)
        }
    };
    (0..900).map(case).collect()
}

/// The list buffer and both counts equal list's, later places too.
#[test]
fn lists_equal_to_list() {
    let mut mixed = 0;
    for case in cases() {
        let ((listing, places), (scanning, scanned)) = (case.listed(), case.scanned());
        assert_eq!((listing.code, scanning.code), (0, 0));
        assert_eq!(scanned, places);
        let counts = (listing.inside, listing.outside);
        assert_eq!((scanning.inside, scanning.outside), counts);
        mixed += u32::from(listing.inside > 0 && listing.outside > 0);
    }
    assert!(mixed >= 300, "{mixed}");
}

/// Whether the point of this number is above this face, by the words.
fn above(case: &Lent, number: usize, face: usize) -> bool {
    let k = case.k;
    let product =
        |s: usize| i64::from(case.points[number * k + s]) * i64::from(case.normals[face * k + s]);
    let sum: i64 = (0..k).map(product).sum();
    match case.marks[face] {
        0 => sum >= case.offsets[face],
        _ => sum > case.offsets[face],
    }
}

/// The face tests counted one by one, number after number and face after face.
fn counted(case: &Lent) -> u32 {
    let mut tests = 0;
    for number in (0..case.n).filter(|&number| case.live[number] == 1) {
        for face in 0..case.h {
            tests += 1;
            if !above(case, number, face) {
                break;
            }
        }
    }
    tests
}

/// The tests equal those counted one by one.
#[test]
fn tests_counted_one_by_one() {
    let mut early = 0;
    for case in cases() {
        let answer = case.scanned().0;
        assert_eq!(answer.tests, counted(&case));
        early += u32::from(answer.tests < case.h as u32 * case.v());
    }
    assert!(early >= 300, "{early}");
}

/// The tests are at least h for each point inside and 1 for each outside, and at
/// most h for every live point.
#[test]
fn ends_of_the_tests() {
    for case in cases() {
        let (answer, h) = (case.scanned().0, case.h as u32);
        assert!(answer.inside * h + answer.outside <= answer.tests);
        assert!(answer.tests <= h * case.v());
    }
}

/// A face put after the others that is already among them: the lists stay, and
/// each point inside has one test more.
#[test]
fn a_face_repeated_at_the_end() {
    for case in cases().into_iter().filter(|case| case.h > 0) {
        let mut longer = case.clone();
        longer.h += 1;
        longer.normals.extend(&case.normals[..case.k]);
        longer.offsets.push(case.offsets[0]);
        longer.marks.push(case.marks[0]);
        let (answer, places) = case.scanned();
        let tests = answer.tests + answer.inside;
        assert_eq!(longer.scanned(), (Scanning { tests, ..answer }, places));
    }
}

/// Other coordinates of the dead numbers: no answer and no place changes.
#[test]
fn dead_coordinates_do_not_matter() {
    let mut state = 179;
    for case in cases() {
        let mut other = case.clone();
        for (place, x) in other.points.iter_mut().enumerate() {
            if case.live[place / case.k] == 0 {
                *x = thrown(&mut state, 1, i32::MIN.into(), i32::MAX.into())[0] as i32;
            }
        }
        assert_eq!(other.scanned(), case.scanned());
    }
}

/// A full shelf inside 32 faces has the most tests there can be.
#[test]
fn most_tests() {
    let n = 65_535;
    let full = lent(1, &vec![0; n], &vec![1; n], &[0; 32], &[0; 32]);
    assert_eq!(full.scanned().0, done(65_535, 0, 2_097_120));
}
