//! Orders that are no longer the tree, damaged in every way.

use crate::chance::Chance;
use crate::live;

/// A way to damage an order of n numbers. On few points or many ties it may leave the order as it was.
pub type Damage = (&'static str, fn(&mut Chance, &mut Vec<u32>));

/// Every way that needs to know nothing of the points.
pub const ALL: [Damage; 16] = [
    ("two neighbours change places", |chance, order| {
        let slot = chance.below(order.len() - 1);
        order.swap(slot, slot + 1);
    }),
    ("any two change places", |chance, order| {
        let (a, b) = (slot(chance, order), slot(chance, order));
        order.swap(a, b);
    }),
    ("the root and the first", |_, order| {
        let root = order.len() / 2;
        order.swap(0, root);
    }),
    ("the first and the last", |_, order| {
        let last = order.len() - 1;
        order.swap(0, last);
    }),
    ("one number twice", |chance, order| {
        let (a, b) = (slot(chance, order), slot(chance, order));
        order[a] = order[b];
    }),
    ("its neighbour's number", |chance, order| {
        let slot = chance.below(order.len() - 1);
        order[slot] = order[slot + 1];
    }),
    ("all the same number", |chance, order| {
        let number = chance.below(order.len()) as u32;
        order.fill(number);
    }),
    ("the number n", |chance, order| {
        let n = order.len() as u32;
        put(chance, order, |_| n);
    }),
    ("the number n + 1", |chance, order| {
        let n = order.len() as u32;
        put(chance, order, |_| n + 1);
    }),
    ("a number and 65,536 more", |chance, order| {
        put(chance, order, |number| number + 65_536);
    }),
    ("a number with its highest bit", |chance, order| {
        put(chance, order, |number| number | 1 << 31);
    }),
    ("the greatest number", |chance, order| {
        put(chance, order, |_| u32::MAX);
    }),
    ("backwards", |_, order| order.reverse()),
    ("turned by one", |_, order| order.rotate_left(1)),
    ("the numbers in turn", |_, order| order.sort_unstable()),
    ("a run backwards", |chance, order| {
        let (a, b) = (slot(chance, order), slot(chance, order));
        order[a.min(b)..=a.max(b)].reverse();
    }),
];

/// Any slot.
fn slot(chance: &mut Chance, order: &[u32]) -> usize {
    chance.below(order.len())
}

/// Puts something else for the number in any slot.
fn put(chance: &mut Chance, order: &mut [u32], other: impl Fn(u32) -> u32) {
    let slot = slot(chance, order);
    order[slot] = other(order[slot]);
}

/// The order of a tree that gives ties to the greater number.
pub fn ties_the_other_way(k: usize, points: &[i32]) -> Vec<u32> {
    let n = points.len() / k;
    let backwards: Vec<i32> = points.chunks(k).rev().flatten().copied().collect();
    let order = arranged(k, &backwards);
    order.iter().map(|number| n as u32 - 1 - number).collect()
}

/// The order of a tree that splits on the dimensions from the last to the first.
pub fn dimensions_the_other_way(k: usize, points: &[i32]) -> Vec<u32> {
    let turned: Vec<i32> = points
        .chunks(k)
        .flat_map(|point| point.iter().rev())
        .copied()
        .collect();
    arranged(k, &turned)
}

/// The order of these points, all live, by the second program.
fn arranged(k: usize, points: &[i32]) -> Vec<u32> {
    let n = points.len() / k;
    let mut order = vec![0; n];
    let answer = second::arrange(k, n, points, &live::all(n), &mut order);
    assert_eq!(answer.code, 0);
    order
}
