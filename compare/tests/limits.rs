//! Each limit on both sides.

use compare::calls;
use compare::cases;
use compare::chance::Chance;
use compare::lent::{shorten, Lent, MOST_OFFSET as M};
use compare::stock::Stock;

/// A right call of `n` points and `h` faces, whose list buffer and order have exactly n places.
fn right(chance: &mut Chance, k: usize, n: usize, h: usize) -> Lent {
    let points = Stock::Extremes.points(chance, k, n);
    let mut lent = Lent::new(chance, k, points);
    lent.order.truncate(n);
    lent.list.truncate(n);
    calls::shelf(&lent).with_faces(vec![1; k * h], vec![0; h])
}

/// Asks what arrange, list and the one-point test answer, with the second program as everywhere. The screen and the explain call
/// answer as list does where the list buffer, which they do not take, has room; but where there is no point, explain refuses with 17.
fn answers(lent: &Lent, arrange: u32, list: u32, place: u32) {
    let arranging = calls::arrange(lent).0;
    assert_eq!(arranging.code, arrange, "arrange of {lent:?}");
    assert_eq!(arranging.already == 1, arrange == 0, "order of {lent:?}");
    assert_eq!(calls::list(lent).0.code, list, "list of {lent:?}");
    assert_eq!(calls::place(lent).code, place, "place of {lent:?}");
    if lent.list.len() >= lent.n {
        assert_eq!(calls::screen(lent).code, list, "screen of {lent:?}");
        let explain = if list == 0 && lent.n == 0 { 17 } else { list };
        assert_eq!(calls::explain(lent).code, explain, "explain of {lent:?}");
    }
}

/// k 1 and 4 pass, 0 and 5 do not.
#[test]
fn dimension() {
    let mut chance = Chance::new(cases::SEED);
    for (k, code) in [(1, 0), (4, 0), (5, 1), (9, 1)] {
        let mut lent = right(&mut chance, 4, 3, 2);
        lent.k = k;
        lent.points = vec![0; k * 3];
        lent.point = vec![0; k];
        lent.order = vec![0, 1, 2];
        lent.normals = vec![0; k * 2];
        answers(&lent, code, code, code);
        lent.k = 0;
        answers(&lent, 1, 1, 1);
    }
}

/// n 65,535 passes, 65,536 does not.
#[test]
fn most_points() {
    let mut chance = Chance::new(cases::SEED);
    for k in [1, 4] {
        let full = right(&mut chance, k, 65_535, 1);
        answers(&full, 0, 0, 0);
        let mut over = full;
        over.n += 1;
        over.points.extend(vec![0; k]);
        over.live.push(0);
        over.order.push(65_535);
        over.list.push(0);
        answers(&over, 2, 2, 0);
    }
}

/// h 32 passes, 33 does not.
#[test]
fn most_faces() {
    let mut chance = Chance::new(cases::SEED);
    for k in 1..=4 {
        let none = right(&mut chance, k, 9, 0);
        answers(&none, 0, 0, 0);
        answers(&none.with_marks(vec![0]), 0, 11, 11);
        answers(&right(&mut chance, k, 9, 32), 0, 0, 0);
        answers(&right(&mut chance, k, 9, 33), 0, 6, 6);
    }
}

/// Every slice one shorter, as it should be, and one longer.
#[test]
fn lengths() {
    let mut chance = Chance::new(cases::SEED);
    for (k, n) in [(1, 1), (2, 5), (3, 64), (4, 300)] {
        let right = right(&mut chance, k, n, 3);
        answers(&right, 0, 0, 0);
        let length = |lent: &Lent, other: fn(&mut Lent), codes: [u32; 3]| {
            let mut lent = lent.clone();
            other(&mut lent);
            answers(&lent, codes[0], codes[1], codes[2]);
        };
        length(&right, |lent| lent.points.push(0), [3, 3, 0]);
        length(&right, |lent| shorten(&mut lent.points), [3, 3, 0]);
        length(&right, |lent| lent.point.push(0), [0, 0, 3]);
        length(&right, |lent| shorten(&mut lent.point), [0, 0, 3]);
        length(&right, |lent| lent.live.push(0), [15, 15, 0]);
        length(&right, |lent| shorten(&mut lent.live), [15, 15, 0]);
        length(&right, |lent| lent.live.clear(), [15, 15, 0]);
        length(&right, |lent| lent.order.push(77), [0, 0, 0]);
        length(&right, |lent| shorten(&mut lent.order), [4, 4, 0]);
        length(&right, |lent| lent.list.push(77), [0, 0, 0]);
        length(&right, |lent| shorten(&mut lent.list), [0, 4, 0]);
        length(&right, |lent| lent.normals.push(0), [0, 7, 7]);
        length(&right, |lent| shorten(&mut lent.normals), [0, 7, 7]);
        length(&right, |lent| lent.offsets.push(0), [0, 7, 7]);
        length(&right, |lent| shorten(&mut lent.offsets), [0, 7, 7]);
        length(&right, |lent| lent.marks.push(0), [0, 11, 11]);
        length(&right, |lent| shorten(&mut lent.marks), [0, 11, 11]);
        length(&right, |lent| lent.marks.clear(), [0, 11, 11]);
    }
}

/// The ends of a coordinate's range pass and the numbers beyond do not, wherever they stand.
#[test]
fn coordinates() {
    let mut chance = Chance::new(cases::SEED);
    for k in 1..=4 {
        let right = right(&mut chance, k, 5, 1);
        for place in 0..5 * k {
            for (number, code) in [(-32_768, 0), (32_767, 0), (-32_769, 5), (32_768, 5)] {
                let mut lent = right.clone();
                lent.points[place] = number;
                lent.point[place % k] = number;
                let order = calls::arrange(&lent).1;
                answers(&lent.with_order(&order), code, code, code);
            }
        }
    }
}

/// The ends of a component's and of an offset's range pass and the numbers beyond do not, wherever they
/// stand.
#[test]
fn faces() {
    let mut chance = Chance::new(cases::SEED);
    for k in 1..=4 {
        let right = right(&mut chance, k, 5, 3);
        for place in 0..3 * k {
            for (number, code) in [(-32_767, 0), (32_767, 0), (-32_768, 8), (32_768, 8)] {
                let mut lent = right.clone();
                lent.normals[place] = number;
                answers(&lent, 0, code, code);
            }
        }
        for place in 0..3 {
            for (number, code) in [(-M, 0), (M, 0), (-M - 1, 8), (M + 1, 8)] {
                let mut lent = right.clone();
                lent.offsets[place] = number;
                answers(&lent, 0, code, code);
            }
        }
    }
}

/// The marks 0 and 1 pass and all greater ones do not, wherever they stand.
#[test]
fn marks() {
    let mut chance = Chance::new(cases::SEED);
    for k in 1..=4 {
        let right = right(&mut chance, k, 5, 3);
        for place in 0..3 {
            for mark in 0..=u8::MAX {
                let mut lent = right.clone();
                lent.marks[place] = mark;
                let code = if mark < 2 { 0 } else { 11 };
                answers(&lent, 0, code, code);
            }
        }
    }
}

/// The last number passes and n does not, nor those beyond; none passes where there are no points.
#[test]
fn numbers() {
    let mut chance = Chance::new(cases::SEED);
    for (k, n) in [(1, 0), (3, 1), (2, 5), (4, 300), (3, 65_535)] {
        let right = right(&mut chance, k, n, 3);
        let number = n as u32;
        let beyond = [number, number + 1, 65_535, 65_536, 65_537, u32::MAX];
        let refused = beyond.map(|number| (number, 17));
        let passed = number.checked_sub(1).map(|last| [(0, 0), (last, 0)]);
        for (number, code) in passed.into_iter().flatten().chain(refused) {
            let lent = right.with_number(number);
            assert_eq!(calls::explain(&lent).code, code, "explain of {lent:?}");
        }
    }
}

/// No points, with and without faces, and with a buffer that need not be there.
#[test]
fn no_points() {
    let mut chance = Chance::new(cases::SEED);
    for k in 1..=4 {
        for h in [0, 1, 32] {
            let lent = right(&mut chance, k, 0, h);
            answers(&lent, 0, 0, 0);
            assert_eq!(calls::list(&lent).0, hornherder::raw::Listing::default());
            assert_eq!(calls::screen(&lent), hornherder::raw::Screening::default());
        }
    }
}
