//! Both visit bounds, and how near the square one is attained.

use crate::lent::Lent;
use second::region::{open, BranchBox};
use second::shelf::Shelf;
use second::visits::{branch_box, root_box};
use second::{is_square, s};
use std::fmt;
use std::slice;

/// The visits of each face of an accepted call, taken as a region alone, by the boxes of the second program.
fn visits_alone(lent: &Lent) -> Vec<u64> {
    let shelf = Shelf {
        k: lent.k,
        points: &lent.points,
        slots: lent.slots(),
    };
    let boxes: Vec<BranchBox> = match root_box(&shelf) {
        None => Vec::new(),
        Some(root) => (0..lent.v())
            .map(|slot| branch_box(&shelf, &root, slot))
            .collect(),
    };
    lent.faces()
        .iter()
        .map(|face| {
            let opened = boxes.iter().filter(|bx| open(slice::from_ref(face), bx));
            opened.count() as u64
        })
        .collect()
}

/// h times S(v, k), if all faces are square.
fn square_bound(lent: &Lent) -> Option<u64> {
    let all = lent.normals.chunks(lent.k).all(is_square);
    all.then(|| lent.h as u64 * s(lent.v(), lent.k))
}

/// Holds the visits of an accepted call against both bounds.
pub fn hold(lent: &Lent, visits: u32) {
    let visits = u64::from(visits);
    let alone: u64 = visits_alone(lent).iter().sum();
    assert!(visits <= alone, "{visits} visits, {alone} alone: {lent:?}");
    if let Some(bound) = square_bound(lent) {
        assert!(visits <= bound, "{visits} visits, h S {bound}: {lent:?}");
    }
}

/// The largest visits / (h S) seen, for one square face and for more.
#[derive(Default)]
pub struct Nearness {
    one: f64,
    more: f64,
}

impl Nearness {
    /// Keeps how near the visits of an accepted call came to h S, where all its faces are square.
    pub fn look(&mut self, lent: &Lent, visits: u32) {
        if let Some(bound @ 1..) = square_bound(lent) {
            let most = match lent.h {
                1 => &mut self.one,
                _ => &mut self.more,
            };
            *most = most.max(f64::from(visits) / bound as f64);
        }
    }
}

impl fmt::Display for Nearness {
    fn fmt(&self, out: &mut fmt::Formatter<'_>) -> fmt::Result {
        let (one, more) = (self.one, self.more);
        write!(
            out,
            "largest visits / (h S) seen: {one:.4} for one square face, {more:.4} for more"
        )
    }
}
