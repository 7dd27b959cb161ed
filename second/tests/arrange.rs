//! The call that arranges: worked examples, refusals, every damaged order of small
//! shelves, and random shelves with dead numbers against the words themselves.

use second::{arrange, explain, list, list_regions, screen, Arranging};

const A: [i32; 12] = [1, 5, 4, 2, 4, 8, 7, 1, 6, 6, 2, 2];
const A_ORDER: [u32; 6] = [1, 5, 0, 2, 3, 4];

/// The arguments of arrange.
#[derive(Clone)]
struct Lent {
    k: usize,
    n: usize,
    points: Vec<i32>,
    live: Vec<u8>,
    order: Vec<u32>,
}

/// Shelf A, every point live, with this order.
fn shelf_a(order: &[u32]) -> Lent {
    Lent {
        k: 2,
        n: 6,
        points: A.to_vec(),
        live: vec![1; 6],
        order: order.to_vec(),
    }
}

/// Calls arrange and gives its answer with the order afterwards.
fn arranged(lent: &Lent) -> (Arranging, Vec<u32>) {
    let mut order = lent.order.clone();
    let answer = arrange(lent.k, lent.n, &lent.points, &lent.live, &mut order);
    (answer, order)
}

/// A done answer.
fn done(already: u32) -> Arranging {
    Arranging { code: 0, already }
}

/// Asks that arrange refuses with this number, says 0 for already and writes
/// nothing.
fn refuses(lent: &Lent, code: u32) {
    let refusal = Arranging { code, already: 0 };
    assert_eq!(arranged(lent), (refusal, lent.order.clone()));
}

/// Asks that the order already was the tree and that nothing is written.
fn already(lent: &Lent) {
    assert_eq!(arranged(lent), (done(1), lent.order.clone()));
}

/// The codes of the four calls that take an order, for no faces and this number.
fn codes_of_lists(lent: &Lent, number: u32) -> [u32; 4] {
    let (k, n, points, live, order) = (lent.k, lent.n, &lent.points, &lent.live, &lent.order);
    let (mut places, mut counts) = (vec![88; n], [99; 3]);
    [
        list(k, n, 0, points, live, order, &[], &[], &[], &mut places).code,
        screen(k, n, 0, points, live, order, &[], &[], &[]).code,
        explain(k, n, 0, number, points, live, order, &[], &[], &[]).code,
        list_regions(
            k,
            n,
            1,
            points,
            live,
            order,
            &[0],
            &[],
            &[],
            &[],
            &mut places,
            &mut counts,
        ),
    ]
}

/// Any first contents become the tree; the later places stay.
#[test]
fn any_first_contents() {
    let rows: [[u32; 8]; 5] = [
        [0; 8],
        [u32::MAX; 8],
        [0, 1, 2, 3, 4, 5, 6, 7],
        [4, 3, 2, 0, 5, 1, 1, 1],
        [1, 5, 0, 2, 3, 3, 4, 4],
    ];
    for row in rows {
        let after = [&A_ORDER[..], &row[6..]].concat();
        assert_eq!(arranged(&shelf_a(&row)), (done(0), after));
    }
}

/// The tree is left as it is, whatever the later places hold.
#[test]
fn already_the_tree() {
    already(&shelf_a(&A_ORDER));
    for later in [0, 1, 4, 6, u32::MAX] {
        already(&shelf_a(&[&A_ORDER[..], &[later; 3]].concat()));
    }
}

/// A tree that stands from the second place on, or from the last place backwards,
/// was not there already.
#[test]
fn the_tree_elsewhere() {
    let moved = [&[1], &A_ORDER[..]].concat();
    let after = [&A_ORDER[..], &[4]].concat();
    assert_eq!(arranged(&shelf_a(&moved)), (done(0), after));
    let backwards: Vec<u32> = A_ORDER.into_iter().rev().collect();
    assert_eq!(arranged(&shelf_a(&backwards)), (done(0), A_ORDER.to_vec()));
}

/// With no live number any order already is the tree, one of no places too.
#[test]
fn empty_shelves() {
    for n in [0, 1, 5] {
        for k in 1..=4 {
            for order in [&[][..], &[0], &[7, u32::MAX]] {
                already(&Lent {
                    k,
                    n,
                    points: vec![i32::MAX; k * n],
                    live: vec![0; n],
                    order: order.to_vec(),
                });
            }
        }
    }
}

/// Two points, the second withdrawn or the first: which orders already are the
/// tree goes by the live number in the first place.
#[test]
fn one_of_two_live() {
    for (live, number) in [([1, 0], 0), ([0, 1], 1)] {
        for first in [0, 1, 2, u32::MAX] {
            let lent = Lent {
                k: 1,
                n: 2,
                points: vec![0, 10],
                live: live.to_vec(),
                order: vec![first, 70],
            };
            let was = u32::from(first == number);
            assert_eq!(arranged(&lent), (done(was), vec![number, 70]));
        }
    }
}

/// A change that brings one refusal about.
type Break = (u32, fn(&mut Lent));

/// One break for each number, in the call's order from the last test to the
/// first: 5 and 4, then 15, then 3 down to 1. Each later one must hide those
/// before it.
const BREAKS: [Break; 6] = [
    (5, |lent| lent.points[7] = 32_768),
    (4, |lent| lent.order.truncate(5)),
    (15, |lent| lent.live[0] = 2),
    (3, |lent| lent.points.push(0)),
    (2, |lent| lent.n = 65_536),
    (1, |lent| lent.k = 5),
];

/// The two orders that the breaks start from: the tree, and one that is not.
fn before_breaks() -> [Lent; 2] {
    [shelf_a(&A_ORDER), shelf_a(&[9; 6])]
}

/// Each break alone: its own number, for the tree too.
#[test]
fn refuses_each_alone() {
    for lent in before_breaks() {
        for (code, change) in BREAKS {
            let mut broken = lent.clone();
            change(&mut broken);
            refuses(&broken, code);
        }
    }
}

/// Any two breaks together: the number that comes first in the call's order.
#[test]
fn refuses_the_first_of_two() {
    for lent in before_breaks() {
        for (place, (_, late)) in BREAKS.into_iter().enumerate() {
            for (code, early) in BREAKS.into_iter().skip(place + 1) {
                let mut broken = lent.clone();
                late(&mut broken);
                early(&mut broken);
                refuses(&broken, code);
            }
        }
    }
}

/// All breaks heaped up from the last test to the first: always the first in the
/// call's order so far.
#[test]
fn refuses_in_its_order() {
    for mut lent in before_breaks() {
        for (code, change) in BREAKS {
            change(&mut lent);
            refuses(&lent, code);
        }
    }
}

/// So many numbers that look random, from `least` to `greatest`.
fn thrown(state: &mut u64, count: usize, least: i64, greatest: i64) -> Vec<i64> {
    let next = |_| {
        *state ^= *state << 13;
        *state ^= *state >> 7;
        *state ^= *state << 17;
        least + (*state % (greatest - least + 1) as u64) as i64
    };
    (0..count).map(next).collect()
}

/// A random shelf of `n` numbers, about a third of them dead, with small
/// coordinates where live and any where dead. The order is not yet arranged.
fn thrown_shelf(state: &mut u64, k: usize, n: usize) -> Lent {
    let throws = thrown(state, n, 0, 2);
    let live: Vec<u8> = throws.into_iter().map(|x| u8::from(x > 0)).collect();
    let point = |&byte: &u8| match byte {
        1 => thrown(state, k, -6, 6),
        _ => thrown(state, k, i32::MIN.into(), i32::MAX.into()),
    };
    let points: Vec<i64> = live.iter().flat_map(point).collect();
    let order = thrown(state, n + 2, 0, n as i64 + 1);
    Lent {
        k,
        n,
        points: points.into_iter().map(|x| x as i32).collect(),
        live,
        order: order.into_iter().map(|x| x as u32).collect(),
    }
}

/// The numbers whose live byte is 1.
fn live_numbers(live: &[u8]) -> Vec<u32> {
    let all = 0..live.len() as u32;
    all.filter(|&number| live[number as usize] == 1).collect()
}

/// Whether the run is a tree by the words themselves: everything left strictly
/// before the node, everything right strictly after.
fn is_tree(k: usize, points: &[i32], run: &[u32], depth: usize) -> bool {
    if run.is_empty() {
        return true;
    }
    let at = |number: u32| (points[number as usize * k + depth % k], number);
    let middle = run.len() / 2;
    let (left, node, right) = (&run[..middle], run[middle], &run[middle + 1..]);
    left.iter().all(|&number| at(number) < at(node))
        && right.iter().all(|&number| at(node) < at(number))
        && is_tree(k, points, left, depth + 1)
        && is_tree(k, points, right, depth + 1)
}

/// Random shelves: afterwards the first v places hold each live number once and
/// are a tree by the words, the later ones are as they were, and arranged again
/// the order already is it.
#[test]
fn the_tree_afterwards() {
    let mut state = 149;
    for round in 0..800 {
        let mut lent = thrown_shelf(&mut state, 1 + round % 4, round % 41);
        let numbers = live_numbers(&lent.live);
        let v = numbers.len();
        let (answer, after) = arranged(&lent);
        assert_eq!(answer, done(u32::from(lent.order[..v] == after[..v])));
        let mut held = after[..v].to_vec();
        assert!(is_tree(lent.k, &lent.points, &held, 0));
        held.sort();
        assert_eq!(held, numbers);
        assert_eq!(after[v..], lent.order[v..]);
        lent.order = after;
        already(&lent);
    }
}

/// Random shelves with their tree, and each order that differs from it in one
/// place or in two that are changed over: it was not the tree, becomes it, and
/// until then the calls that take an order refuse it with 9.
#[test]
fn every_damaged_order() {
    let mut state = 151;
    for round in 0..60 {
        let mut lent = thrown_shelf(&mut state, 1 + round % 4, round % 9);
        let numbers = live_numbers(&lent.live);
        let tree = arranged(&lent).1;
        for damaged in damaged_orders(&tree, numbers.len()) {
            lent.order = damaged;
            assert_eq!(codes_of_lists(&lent, numbers[0]), [9; 4]);
            assert_eq!(arranged(&lent), (done(0), tree.clone()));
        }
        lent.order = tree;
        if let Some(&number) = numbers.first() {
            assert_eq!(codes_of_lists(&lent, number), [0; 4]);
        }
    }
}

/// All orders that differ from this one in one of the first `v` places, or in two
/// of them that are changed over.
fn damaged_orders(tree: &[u32], v: usize) -> Vec<Vec<u32>> {
    let mut all = Vec::new();
    for slot in 0..v {
        for number in (0..tree.len() as u32).chain([u32::MAX]) {
            let mut changed = tree.to_vec();
            changed[slot] = number;
            all.push(changed);
        }
        for other in 0..slot {
            let mut changed = tree.to_vec();
            changed.swap(slot, other);
            all.push(changed);
        }
    }
    all.retain(|changed| changed != tree);
    all
}

/// Other coordinates of the dead numbers: no answer and no place changes.
#[test]
fn dead_coordinates_do_not_matter() {
    let mut state = 157;
    for round in 0..300 {
        let lent = thrown_shelf(&mut state, 1 + round % 4, round % 23);
        let mut other = lent.clone();
        for (place, x) in other.points.iter_mut().enumerate() {
            if lent.live[place / lent.k] == 0 {
                *x = thrown(&mut state, 1, i32::MIN.into(), i32::MAX.into())[0] as i32;
            }
        }
        assert_eq!(arranged(&other), arranged(&lent));
    }
}
