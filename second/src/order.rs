//! The one order of a shelf, and the comparison of slots with it.

use crate::live::{live_numbers, total_live};
use crate::shelf::point;

/// The order of the live points: the number in each of the first v slots.
pub fn built_order(k: usize, points: &[i32], live: &[u8]) -> Vec<u32> {
    built_branch(k, points, live_numbers(live), 0)
}

/// The slots of the branch at this depth that holds these numbers. The run is
/// sorted by coordinate, then number; its middle is the node.
fn built_branch(k: usize, points: &[i32], mut run: Vec<u32>, depth: usize) -> Vec<u32> {
    if run.is_empty() {
        return run;
    }
    let s = depth % k;
    run.sort_by_key(|&number| (point(k, points, number)[s], number));
    let middle = run.len() / 2;
    let node = run[middle];
    let left = run[..middle].to_vec();
    let right = run[middle + 1..].to_vec();
    let mut slots = built_branch(k, points, left, depth + 1);
    slots.push(node);
    slots.extend(built_branch(k, points, right, depth + 1));
    slots
}

/// Whether the first v slots of this order are the tree of the live points.
pub fn is_tree(k: usize, points: &[i32], live: &[u8], order: &[u32]) -> bool {
    order[..total_live(live)] == built_order(k, points, live)[..]
}
