//! Shelves made against the standard library's select: what the numbers are is decided only when it looks at them.

use crate::stock::LEAST;
use std::cell::RefCell;
use std::cmp::Ordering;

/// The rank of an item that is not decided yet; it counts as greater than every decided one.
const UNDECIDED: usize = usize::MAX;

/// Points on which select finds pivots as bad as can be. Each dimension is decided at the depth that first splits on it.
pub fn against_select(k: usize, n: usize) -> Vec<i32> {
    let mut points = vec![0; k * n];
    let mut order: Vec<u32> = (0..n as u32).collect();
    decide_branch(&mut points, k, 0, &mut order);
    points
}

/// Decides a branch on the dimension of its depth, then its two branches on the next, until there is none.
fn decide_branch(points: &mut [i32], k: usize, depth: usize, run: &mut [u32]) {
    if depth == k || run.is_empty() {
        return;
    }
    let ranks = decide(run);
    for (&number, rank) in run.iter().zip(ranks) {
        points[number as usize * k + depth] = LEAST + rank as i32;
    }
    let middle = run.len() / 2;
    decide_branch(points, k, depth + 1, &mut run[..middle]);
    decide_branch(points, k, depth + 1, &mut run[middle + 1..]);
}

/// Puts the numbers where the items went, and gives the ranks in that order. Items left undecided get the ranks that are left.
fn settle(run: &mut [u32], items: &[usize], mut ranks: Vec<usize>) -> Vec<usize> {
    let mut next = ranks.iter().filter(|&&rank| rank != UNDECIDED).count();
    for &item in items {
        if ranks[item] == UNDECIDED {
            ranks[item] = next;
            next += 1;
        }
    }
    let before = run.to_vec();
    for (place, &item) in run.iter_mut().zip(items) {
        *place = before[item];
    }
    items.iter().map(|&item| ranks[item]).collect()
}

/// What is decided while a select runs: the ranks, and the item that looks like the pivot.
struct Watched {
    ranks: Vec<usize>,
    decided: usize,
    pivot: usize,
}

impl Watched {
    /// Compares two items. Of two undecided ones that which looks like the pivot gets the next least rank.
    fn compare(&mut self, x: usize, y: usize) -> Ordering {
        if x != y && self.ranks[x] == UNDECIDED && self.ranks[y] == UNDECIDED {
            let least = if x == self.pivot { x } else { y };
            self.ranks[least] = self.decided;
            self.decided += 1;
        }
        if self.ranks[x] == UNDECIDED {
            self.pivot = x;
        } else if self.ranks[y] == UNDECIDED {
            self.pivot = y;
        }
        self.ranks[x].cmp(&self.ranks[y])
    }
}

/// Decides the ranks of a run while its middle is selected, and puts its numbers where that leaves them.
fn decide(run: &mut [u32]) -> Vec<usize> {
    let watched = RefCell::new(Watched {
        ranks: vec![UNDECIDED; run.len()],
        decided: 0,
        pivot: 0,
    });
    let mut items: Vec<usize> = (0..run.len()).collect();
    let compare = |x: &usize, y: &usize| watched.borrow_mut().compare(*x, *y);
    items.select_nth_unstable_by(run.len() / 2, compare);
    settle(run, &items, watched.into_inner().ranks)
}
