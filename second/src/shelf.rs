//! A shelf: points and the slots that hold the live numbers.

use crate::live::total_live;
use std::ops::Range;

/// The points, `k` coordinates each, and the slots: one number per live point.
#[derive(Clone, Copy, Debug)]
pub struct Shelf<'a> {
    pub k: usize,
    pub points: &'a [i32],
    pub slots: &'a [u32],
}

impl Shelf<'_> {
    /// The point whose number stands in this slot.
    pub fn point_at(&self, slot: usize) -> &[i32] {
        point(self.k, self.points, self.slots[slot])
    }
}

/// The shelf of the live points: its slots are the first v places of the order.
pub fn live_shelf<'a>(k: usize, points: &'a [i32], live: &[u8], order: &'a [u32]) -> Shelf<'a> {
    let slots = &order[..total_live(live)];
    Shelf { k, points, slots }
}

/// Where the `k` coordinates of the point of this number stand among the points.
pub fn coordinates_of(k: usize, number: u32) -> Range<usize> {
    let first = number as usize * k;
    first..first + k
}

/// The `k` coordinates of the point of this number.
pub fn point(k: usize, points: &[i32], number: u32) -> &[i32] {
    &points[coordinates_of(k, number)]
}

/// A branch: a run of slots that starts at slot `start`, and its depth.
#[derive(Clone, Copy, Debug, PartialEq, Eq)]
pub struct Run {
    pub start: usize,
    pub length: usize,
    pub depth: usize,
}

impl Run {
    /// The run of the root branch of a shelf of `v` live points.
    pub fn root(v: usize) -> Run {
        Run {
            start: 0,
            length: v,
            depth: 0,
        }
    }

    /// The slot of the node: half the length, rounded down, after the start.
    pub fn node(&self) -> usize {
        self.start + self.length / 2
    }

    /// The left branch: the slots before the node.
    pub fn left(&self) -> Run {
        Run {
            start: self.start,
            length: self.node() - self.start,
            depth: self.depth + 1,
        }
    }

    /// The right branch: the slots after the node.
    pub fn right(&self) -> Run {
        let start = self.node() + 1;
        Run {
            start,
            length: self.start + self.length - start,
            depth: self.depth + 1,
        }
    }
}

/// All branches of a shelf of `v` live points, in the order of their node slots.
pub fn branches(v: usize) -> Vec<Run> {
    (0..v).map(|node| branch_of_node(v, node)).collect()
}

/// The branch whose node is in this slot, from the root down.
fn branch_of_node(v: usize, node: usize) -> Run {
    let mut run = Run::root(v);
    while node != run.node() {
        run = match node < run.node() {
            true => run.left(),
            false => run.right(),
        };
    }
    run
}
