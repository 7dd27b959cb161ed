//! The call for several regions, made by the library and by the second program, which must agree in the answer and in every lent place
//! afterwards; and region by region the library held to its own list call.

use crate::bounds;
use crate::calls::{lend, lend_faces, lend_live, listed, same, same_lent};
use crate::chance::Chance;
use crate::lent::Lent;
use hornherder::raw;
use std::fmt;

/// What is lent to the call: a shelf with the faces of all regions end to end, and what one region alone does not have.
#[derive(Clone, PartialEq, Eq)]
pub struct Several {
    pub lent: Lent,
    pub regions: usize,
    pub face_counts: Vec<u32>,
    pub lists: Vec<u32>,
    pub counts: Vec<u32>,
}

impl Several {
    /// These regions of a shelf, with buffers that hold anything and have some places behind those that are asked for.
    pub fn new(chance: &mut Chance, shelf: &Lent, regions: &[Lent]) -> Several {
        let mut none = shelf.with_faces(Vec::new(), Vec::new());
        none.list.clear();
        let join = |joined: Lent, region: &Lent| joined.with_more_faces(region);
        let behind = [chance.below(4), chance.below(4)];
        Several {
            lent: regions.iter().fold(none, join),
            regions: regions.len(),
            face_counts: regions.iter().map(|region| region.h as u32).collect(),
            lists: chance.contents(regions.len() * shelf.v() + behind[0]),
            counts: chance.contents(regions.len() * 3 + behind[1]),
        }
    }

    /// The same with no place behind those that are asked for.
    pub fn exact(mut self) -> Several {
        let v = self.lent.v();
        self.lent.order.truncate(v);
        self.lists.truncate(self.regions * v);
        self.counts.truncate(self.regions * 3);
        self
    }

    /// The list call for this region of an accepted call alone, with a buffer of v places.
    pub fn alone(&self, region: usize) -> Lent {
        let (k, v) = (self.lent.k, self.lent.v());
        let start = self.face_counts[..region].iter().sum::<u32>() as usize;
        let end = start + self.face_counts[region] as usize;
        let offsets = self.lent.offsets[start..end].to_vec();
        let normals = self.lent.normals[k * start..k * end].to_vec();
        let mut alone = self.lent.with_faces(normals, offsets);
        alone.marks = self.lent.marks[start..end].to_vec();
        alone.list = vec![u32::MAX; v];
        alone
    }

    /// The same with other numbers behind the slices and in both buffers.
    fn with_other_behind(&self) -> Several {
        let mut changed = self.clone();
        changed.lent = self.lent.with_other_behind();
        for number in changed.lists.iter_mut().chain(&mut changed.counts) {
            *number = number.wrapping_mul(5).wrapping_add(7);
        }
        changed
    }

    /// The calls that must be answered as this one, and in what they differ from it.
    fn alike(&self) -> Vec<(&'static str, Several)> {
        let behind = ("by what is behind", self.with_other_behind());
        let with = |lent| Several {
            lent,
            ..self.clone()
        };
        let closed = self.lent.with_open_as_closed().map(with);
        let closed = closed.map(|other| ("by closed faces in place of open ones", other));
        let dead = self.lent.with_other_dead().map(with);
        let dead = dead.map(|other| ("by other dead coordinates", other));
        [behind].into_iter().chain(closed).chain(dead).collect()
    }

    /// How many places of both buffers a call with this answer may write.
    fn written(&self, code: u32) -> (usize, usize) {
        match code {
            0 => (self.regions * self.lent.v(), self.regions * 3),
            _ => (0, 0),
        }
    }
}

impl fmt::Debug for Several {
    /// The regions, the lengths of the buffers, and what one region has too.
    fn fmt(&self, out: &mut fmt::Formatter<'_>) -> fmt::Result {
        let lengths = (self.lists.len(), self.counts.len());
        write!(out, "{} regions of {:?}", self.regions, self.face_counts)?;
        write!(out, ", lists {}, counts {}", lengths.0, lengths.1)?;
        write!(out, ", {:?}", self.lent)
    }
}

/// Compares the call, also with the calls that must be answered alike, and each region with the list call: the answer, and both buffers
/// afterwards.
pub fn list(several: &Several) -> (u32, Vec<u32>, Vec<u32>) {
    let mut theirs = several.clone();
    let lent = &several.lent;
    let expected = second::list_regions(
        lent.k,
        lent.n,
        several.regions,
        &lent.points,
        &lent.live,
        &lent.order,
        &several.face_counts,
        &lent.normals,
        &lent.offsets,
        &lent.marks,
        &mut theirs.lists,
        &mut theirs.counts,
    );
    let (code, ours) = regions_listed(several);
    assert_eq!(code, expected, "list_regions of {several:?}");
    same("the lists", several, &ours.lists, &theirs.lists);
    same("the counts", several, &ours.counts, &theirs.counts);
    kept(several, code, &ours);
    for (why, other) in several.alike() {
        listed_alike(why, &other, code, &ours);
    }
    if code == 0 {
        (0..several.regions).for_each(|region| as_alone(&ours, region));
    }
    (code, ours.lists, ours.counts)
}

/// Calls the library with other numbers right behind each slice that is read but the order: the answer, and all that was lent afterwards.
fn regions_listed(several: &Several) -> (u32, Several) {
    let mut ours = several.clone();
    let order = &mut ours.lent.order;
    let (lists, counts) = (&mut ours.lists, &mut ours.counts);
    let (lent, regions) = (&several.lent, several.regions);
    let code = lend_live(lent, |points, live| {
        lend(lent, &several.face_counts, |face_counts| {
            lend_faces(lent, |normals, offsets, marks| {
                raw::list_regions(
                    lent.k,
                    lent.n,
                    regions,
                    points,
                    live,
                    order,
                    face_counts,
                    normals,
                    offsets,
                    marks,
                    lists,
                    counts,
                )
            })
        })
    });
    same_lent("list_regions", lent, &ours.lent, lent);
    (code, ours)
}

/// Asks that a refused call left every place of both buffers, and a done one those behind the last region's.
fn kept(before: &Several, code: u32, after: &Several) {
    let (lists, counts) = before.written(code);
    let later = (&after.lists[lists..], &before.lists[lists..]);
    same("the later places of the lists", before, later.0, later.1);
    let later = (&after.counts[counts..], &before.counts[counts..]);
    same("the later places of the counts", before, later.0, later.1);
}

/// Asks that the library answers another call with what it answered, with the same lists and the same counts.
fn listed_alike(why: &str, other: &Several, code: u32, ours: &Several) {
    let (again, after) = regions_listed(other);
    assert_eq!(again, code, "list_regions {why} of {other:?}");
    kept(other, again, &after);
    let (lists, counts) = other.written(code);
    same(why, other, &after.lists[..lists], &ours.lists[..lists]);
    same(why, other, &after.counts[..counts], &ours.counts[..counts]);
}

/// Asks that a region has what the library's list call gives for its faces alone; that its list holds each live number once; and that its
/// visits are within both bounds.
fn as_alone(after: &Several, region: usize) {
    let alone = after.alone(region);
    let (answer, single) = listed(&alone);
    let three = [answer.inside, answer.outside, answer.visits];
    assert_eq!(answer.code, 0, "region {region} alone of {after:?}");
    let counts = &after.counts[3 * region..][..3];
    same("the counts by the list call", after, counts, &three);
    let v = alone.v();
    let list = &after.lists[region * v..][..v];
    same("the list by the list call", after, list, &single.list);
    let mut numbers = list.to_vec();
    numbers.sort_unstable();
    same(
        "the numbers of a region",
        after,
        &numbers,
        &alone.live_numbers(),
    );
    assert_eq!(counts[0] + counts[1], v as u32, "{after:?}");
    bounds::hold(&alone, counts[2]);
}
