//! The definitions themselves, held against small and random shelves, every point
//! live.

use second::{arrange, is_square, list, place, s, visits_of_face, Listing};

/// A simple row of numbers that look random.
struct Dice(u64);

impl Dice {
    /// The next number from `least` to `greatest`.
    fn throw(&mut self, least: i64, greatest: i64) -> i64 {
        self.0 ^= self.0 << 13;
        self.0 ^= self.0 >> 7;
        self.0 ^= self.0 << 17;
        least + (self.0 % (greatest - least + 1) as u64) as i64
    }

    /// So many numbers from `-most` to `most`.
    fn row(&mut self, count: usize, most: i64) -> Vec<i32> {
        (0..count).map(|_| self.throw(-most, most) as i32).collect()
    }
}

/// Whether the run is a tree by the words themselves: everything left strictly
/// before the node, everything right strictly after.
fn is_tree(k: usize, points: &[i32], run: &[u32], depth: usize) -> bool {
    if run.is_empty() {
        return true;
    }
    let at = |number: u32| (points[number as usize * k + depth % k], number);
    let middle = run.len() / 2;
    let (left, node, right) = (&run[..middle], run[middle], &run[middle + 1..]);
    left.iter().all(|&number| at(number) < at(node))
        && right.iter().all(|&number| at(node) < at(number))
        && is_tree(k, points, left, depth + 1)
        && is_tree(k, points, right, depth + 1)
}

/// Every order of the numbers 0 to n-1.
fn orders(n: u32) -> Vec<Vec<u32>> {
    if n == 0 {
        return vec![vec![]];
    }
    let mut all = Vec::new();
    for shorter in orders(n - 1) {
        for slot in 0..=shorter.len() {
            let mut longer = shorter.clone();
            longer.insert(slot, n - 1);
            all.push(longer);
        }
    }
    all
}

/// Of all orders of a small shelf exactly one is a tree. Every one is arranged into
/// it, and it alone already was it.
#[test]
fn exactly_one_order() {
    let mut dice = Dice(11);
    for n in 0..=6usize {
        for k in 1..=4 {
            let points = dice.row(k * n, 2);
            let mut order = vec![9; n];
            assert_eq!(arrange(k, n, &points, &vec![1; n], &mut order).code, 0);
            let all = orders(n as u32);
            let trees: Vec<_> = all.iter().filter(|o| is_tree(k, &points, o, 0)).collect();
            assert_eq!(trees, [&order]);
            for other in &all {
                let mut after = other.clone();
                let answer = arrange(k, n, &points, &vec![1; n], &mut after);
                let already = u32::from(*other == order);
                assert_eq!((answer.code, answer.already), (0, already));
                assert_eq!(after, order);
            }
        }
    }
}

/// The first contents of the order do not matter.
#[test]
fn first_contents_do_not_matter() {
    let points = Dice(5).row(60, 4);
    let arranged = |number: u32| {
        let mut order = vec![number; 20];
        let answer = arrange(3, 20, &points, &[1; 20], &mut order);
        assert_eq!((answer.code, answer.already), (0, 0));
        order
    };
    assert_eq!(arranged(0), arranged(u32::MAX));
}

/// A random shelf and region, small enough to have ties.
struct Thrown {
    k: usize,
    points: Vec<i32>,
    order: Vec<u32>,
    normals: Vec<i32>,
    offsets: Vec<i64>,
    marks: Vec<u8>,
}

/// Throws a shelf with its arranged order and a region of closed and open faces;
/// square faces on demand.
fn thrown(dice: &mut Dice, square: bool) -> Thrown {
    let k = dice.throw(1, 4) as usize;
    let n = dice.throw(0, 70) as usize;
    let h = dice.throw(0, 5) as usize;
    let points = dice.row(k * n, 20);
    let mut order = vec![0; n];
    assert_eq!(arrange(k, n, &points, &vec![1; n], &mut order).code, 0);
    let mut normals = dice.row(k * h, 3);
    for face in 0..h {
        let kept = dice.throw(0, k as i64 - 1) as usize;
        for other in (0..k).filter(|&other| square && other != kept) {
            normals[face * k + other] = 0;
        }
    }
    let offsets = (0..h).map(|_| dice.throw(-60, 30)).collect();
    let marks = (0..h).map(|_| dice.throw(0, 1) as u8).collect();
    Thrown {
        k,
        points,
        order,
        normals,
        offsets,
        marks,
    }
}

/// Lists a thrown shelf.
fn listed(t: &Thrown) -> (Listing, Vec<u32>) {
    let (n, h) = (t.order.len(), t.offsets.len());
    let mut places = vec![0; n];
    let answer = list(
        t.k,
        n,
        h,
        &t.points,
        &vec![1; n],
        &t.order,
        &t.normals,
        &t.offsets,
        &t.marks,
        &mut places,
    );
    assert_eq!(answer.code, 0);
    (answer, places)
}

/// The list holds each number once, on the side the one-point test says, and in
/// slot order from both ends.
#[test]
fn lists_agree_with_the_one_point_test() {
    let mut dice = Dice(23);
    for _ in 0..400 {
        let t = thrown(&mut dice, false);
        let (answer, places) = listed(&t);
        let side = |number: &u32| {
            let first = *number as usize * t.k;
            let point = &t.points[first..first + t.k];
            let h = t.offsets.len();
            place(t.k, h, point, &t.normals, &t.offsets, &t.marks).inside
        };
        let (front, back) = places.split_at(answer.inside as usize);
        let within: Vec<u32> = t.order.iter().copied().filter(|p| side(p) == 1).collect();
        let without: Vec<u32> = t.order.iter().copied().filter(|p| side(p) == 0).collect();
        assert_eq!(front, within);
        assert_eq!(back.iter().rev().copied().collect::<Vec<_>>(), without);
        assert_eq!(answer.outside as usize, without.len());
    }
}

/// Visits are at most the sum of the visits of each face alone.
#[test]
fn visits_at_most_the_sum_of_faces() {
    let mut dice = Dice(31);
    for round in 0..400 {
        let t = thrown(&mut dice, round % 2 == 0);
        let n = t.order.len();
        let alone = |((normal, &m), &mark)| {
            visits_of_face(t.k, n, &t.points, &vec![1; n], &t.order, normal, m, mark).unwrap()
        };
        let faces = t.normals.chunks(t.k).zip(&t.offsets).zip(&t.marks);
        let sum: u32 = faces.map(alone).sum();
        assert!(listed(&t).0.visits <= sum);
    }
}

/// Where all faces are square, whatever their marks, visits are at most h times
/// S(n, k).
#[test]
fn visits_at_most_the_bound() {
    let mut dice = Dice(47);
    for _ in 0..400 {
        let t = thrown(&mut dice, true);
        assert!(t.normals.chunks(t.k).all(is_square));
        let bound = t.offsets.len() as u64 * s(t.order.len(), t.k);
        assert!(u64::from(listed(&t).0.visits) <= bound);
    }
}
