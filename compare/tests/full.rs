//! Full shelves of 65,535 points.

use compare::bounds::Nearness;
use compare::calls;
use compare::cases;
use compare::chance::Chance;
use compare::changes;
use compare::damage;
use compare::faces;
use compare::lent::Lent;
use compare::live;
use compare::several::{self, Several};
use compare::shelves;
use compare::stock::Stock;
use hornherder::raw;
use second::region::{CLOSED, OPEN};
use std::thread;

const N: usize = 65_535;

/// Compares every call on a full shelf of each kind of points in each dimension.
#[test]
fn full_shelves() {
    let mut nearness = Nearness::default();
    let kinds = Stock::ALL.len();
    cases::make("full shelves", 4 * kinds, |chance, case| {
        let (k, stock) = (1 + case % 4, Stock::ALL[case / 4 % kinds]);
        let points = stock.points(chance, k, N);
        let shelf = calls::shelf(&Lent::new(chance, k, points));
        let h = chance.one_of(&[1, 6, 14, 32]);
        let (normals, offsets) = faces::region(chance, k, &shelf.points, h);
        let call = shelf.with_faces(normals, offsets);
        let (answer, _) = calls::list(&call);
        assert_eq!(answer.code, 0);
        nearness.look(&call, answer.visits);
        assert_eq!(calls::screen(&call).code, 0);
        let (_, make) = chance.one_of(&damage::ALL);
        let mut slots = shelf.order[..N].to_vec();
        make(chance, &mut slots);
        let (answer, after) = calls::arrange(&shelf.with_order(&slots));
        assert_eq!(answer.already == 1, slots == shelf.order[..N]);
        assert!(after == shelf.order);
        let marked = call.with_marks(faces::marks(chance, h));
        nearness.look(&marked, calls::list(&marked).0.visits);
        assert_eq!(calls::screen(&marked).code, 0);
        let some = chance.below(N) as u32;
        assert_eq!(calls::explain(&call.with_number(some)).code, 0);
        let other = chance.below(N) as u32;
        assert_eq!(calls::explain(&marked.with_number(other)).code, 0);
    });
    println!("full shelves: {nearness}");
}

/// The live bytes of a full shelf, about half of them dead, each by chance.
fn half_dead(chance: &mut Chance) -> Vec<u8> {
    (0..N).map(|_| u8::from(chance.below(2) > 0)).collect()
}

/// Compares every call on a full shelf of each kind of points, half of whose numbers are dead, and a take and a withdrawal there.
#[test]
fn half_dead_shelves() {
    let kinds = Stock::ALL.len();
    cases::make("full shelves, half of them dead", kinds, |chance, case| {
        let (k, stock) = (1 + case % 4, Stock::ALL[case % kinds]);
        let live = half_dead(chance);
        let points = stock.points(chance, k, live::count(&live));
        let shelf = Lent::new(chance, k, points);
        let shelf = calls::shelf(&shelves::among_dead(chance, &shelf, live));
        let call = shelves::marked_region(chance, &shelf);
        assert_eq!(calls::list(&call).0.code, 0);
        assert_eq!(calls::screen(&call).code, 0);
        let some = chance.below(N) as u32;
        let code = if call.is_live(some) { 0 } else { 17 };
        assert_eq!(calls::explain(&call.with_number(some)).code, code);
        let regions = [call.clone(), shelf.clone()];
        let several = Several::new(chance, &shelf, &regions);
        assert_eq!(several::list(&several).0, 0);
        let (answer, after) = changes::take(&call.with_point(shelf.slots()[0]));
        assert_eq!(answer.code, 0);
        let (code, back) = changes::withdraw(&after.with_number(answer.number));
        assert!(code == 0 && calls::is_shelf(&back));
    });
}

/// Compares the call for several regions with as many as are allowed on a full shelf: of no faces, of some, and of as many as are allowed.
#[test]
fn full_regions() {
    cases::make("full shelves with 64 regions", 1, |chance, _| {
        let points = Stock::Clustered.points(chance, 3, N);
        let shelf = calls::shelf(&Lent::new(chance, 3, points));
        let regions: Vec<Lent> = (0..64)
            .map(|region| {
                let h = [0, 1, 2, 6, 1, 3, 32, 8][region % 8];
                let (normals, offsets) = faces::region(chance, 3, &shelf.points, h);
                let closed = shelf.with_faces(normals, offsets);
                closed.with_marks(faces::marks(chance, h))
            })
            .collect();
        let call = Several::new(chance, &shelf, &regions);
        let (code, _, counts) = several::list(&call);
        assert_eq!(code, 0);
        assert!(counts.chunks_exact(3).any(|three| three[2] > 0));
    });
}

/// As many faces as are allowed, which all lie on one plane and leave nothing between them: a screen finds nothing and goes down every branch
/// that the plane cuts.
fn empty_on_a_plane(k: usize) -> (Vec<i32>, Vec<i64>) {
    let (up, down) = (vec![1; k], vec![-1; k]);
    ([up, down].concat().repeat(16), [1, 0].repeat(16))
}

/// Makes the deepest calls on a shelf of this dimension that take a region, with faces of these marks.
fn deepest_regions(k: usize, points: &[i32], order: &[u32], marks: &[u8; 32]) {
    let live = &live::all(N);
    let mut list = vec![0; N];
    let normals: Vec<i32> = (0..32 * k).map(|i| i as i32 % 7 - 3).collect();
    let m = [-30_000; 32];
    let answer = raw::list(
        k, N, 32, points, live, order, &normals, &m, marks, &mut list,
    );
    assert_eq!(answer.code, 0);
    assert!(answer.visits > 0);
    let answer = raw::place(k, 32, &points[..k], &normals, &[0; 32], marks);
    assert_eq!(answer.code, 0);
    let (normals, offsets) = empty_on_a_plane(k);
    let answer = raw::screen(k, N, 32, points, live, order, &normals, &offsets, marks);
    assert_eq!((answer.code, answer.found), (0, 0));
    assert!(answer.visits > 0);
}

/// Makes the deepest and largest call for several regions on a shelf of this dimension: as many as are allowed, each of as many faces of these
/// marks as are allowed.
fn deepest_morning(k: usize, points: &[i32], order: &[u32], marks: &[u8; 32]) {
    let (mut lists, mut counts) = (vec![0; 64 * N], [0; 64 * 3]);
    let (normals, offsets) = empty_on_a_plane(k);
    let (normals, offsets, marks) = (normals.repeat(64), offsets.repeat(64), marks.repeat(64));
    let (lists, counts) = (&mut lists, &mut counts);
    #[rustfmt::skip]
    let code = raw::list_regions(k, N, 64, points, &live::all(N), order, &[32; 64], &normals, &offsets, &marks, lists, counts);
    assert_eq!(code, 0);
    assert!(counts.chunks_exact(3).all(|three| three[2] > 0));
}

/// Makes the deepest explain call on a shelf of this dimension: the point in a slot of the last depth, through which faces of these marks go
/// both ways, so that they cut every branch that holds it.
fn deepest_way(k: usize, points: &[i32], order: &[u32], marks: &[u8; 32]) {
    let slot = N / 2 - 1;
    let number = order[slot];
    let point = &points[number as usize * k..][..k];
    let sum: i64 = point.iter().map(|&x| i64::from(x)).sum();
    let (normals, _) = empty_on_a_plane(k);
    let offsets = [sum, -sum].repeat(16);
    let live = &live::all(N);
    #[rustfmt::skip]
    let answer = raw::explain(k, N, 32, number, points, live, order, &normals, &offsets, marks);
    assert_eq!((answer.code, usize::from(answer.slot)), (0, slot));
}

/// Makes a point of each kind of reading.
fn every_reading() {
    let mut place = [0; 3];
    let answers = [
        raw::point_from_colour(0.1, -127.3, 127.3, &mut place),
        raw::point_from_grey(-0.1, &mut place),
        raw::point_from_nothing(&mut place),
    ];
    assert_eq!(answers.map(|answer| answer.made), [1, 1, 0]);
}

/// Makes the longest takes and withdrawals on a full shelf of this dimension: of its last number.
fn longest_changes(k: usize, points: &mut [i32]) {
    let (mut live, last) = (live::all(N), N as u32 - 1);
    let point = points[..k].to_vec();
    assert_eq!(raw::take(k, N, points, &mut live, &point).code, 16);
    assert_eq!(raw::withdraw(N, last, &mut live), 0);
    let answer = raw::take(k, N, points, &mut live, &point);
    assert_eq!((answer.code, answer.number), (0, last));
}

/// Arranges a full shelf of this dimension that has so many live numbers, and then once more what it is already.
fn arranged_twice(k: usize, points: &[i32], live: &[u8], v: usize) -> Vec<u32> {
    let mut order = vec![0; v];
    for already in [0, 1] {
        let answer = raw::arrange(k, N, points, live, &mut order);
        assert_eq!((answer.code, answer.already), (0, already));
    }
    order
}

/// Makes the calls on a full shelf of this dimension, every second number of which is dead.
fn every_second(k: usize, points: &[i32]) {
    let live: Vec<u8> = (0..N).map(|number| (number % 2) as u8).collect();
    let order = arranged_twice(k, points, &live, N / 2);
    let (normals, offsets) = empty_on_a_plane(k);
    let (list, marks) = (&mut order.clone(), &[CLOSED; 32]);
    #[rustfmt::skip]
    let answer = raw::list(k, N, 32, points, &live, &order, &normals, &offsets, marks, list);
    assert_eq!((answer.code, answer.inside), (0, 0));
}

/// The deepest calls there are need no more stack than the header says.
#[test]
fn stack() {
    let deepest = || {
        every_reading();
        for k in 1..=4 {
            let mut points: Vec<i32> = (0..k * N)
                .map(|i| (i * 7_919 % 65_536) as i32 - 32_768)
                .collect();
            let order = arranged_twice(k, &points, &live::all(N), N);
            for mark in [CLOSED, OPEN] {
                deepest_regions(k, &points, &order, &[mark; 32]);
                deepest_morning(k, &points, &order, &[mark; 32]);
                deepest_way(k, &points, &order, &[mark; 32]);
            }
            every_second(k, &points);
            longest_changes(k, &mut points);
        }
    };
    let small = thread::Builder::new().stack_size(raw::STACK_BYTES);
    small.spawn(deepest).unwrap().join().unwrap();
}
