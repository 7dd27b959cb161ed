//! What is lent to a call.

use crate::chance::Chance;
use crate::live;
use second::live::{belongs, live_numbers, DEAD};
use second::region::{Face, CLOSED, OPEN};
use std::fmt;

/// The greatest offset.
pub const MOST_OFFSET: i64 = 8_589_934_592;

/// The arguments of all calls for one region: arrange takes the first part, the screen all but the list buffer, the explain call the same with the
/// number, withdraw the number and the live bytes, take the point with points and live bytes, the one-point test the point.
#[derive(Clone, PartialEq, Eq)]
pub struct Lent {
    pub k: usize,
    pub n: usize,
    pub h: usize,
    pub points: Vec<i32>,
    pub live: Vec<u8>,
    pub order: Vec<u32>,
    pub normals: Vec<i32>,
    pub offsets: Vec<i64>,
    pub marks: Vec<u8>,
    pub list: Vec<u32>,
    pub number: u32,
    pub point: Vec<i32>,
    /// What stands in memory directly behind the live bytes and the marks, for the one-point test and the explain call behind the points and
    /// all slices of the faces, and for arrange and take behind all slices.
    pub beyond: [u8; 4],
}

impl Lent {
    /// These points, all live, and no faces, with buffers that hold anything and have some places behind place n.
    pub fn new(chance: &mut Chance, k: usize, points: Vec<i32>) -> Lent {
        let n = points.len() / k;
        let behind = chance.below(4);
        let (order, list) = (chance.contents(n + behind), chance.contents(n + behind));
        let point = match n {
            0 => vec![0; k],
            _ => points[..k].to_vec(),
        };
        Lent {
            k,
            n,
            h: 0,
            points,
            live: live::all(n),
            order,
            normals: Vec::new(),
            offsets: Vec::new(),
            marks: Vec::new(),
            list,
            number: 0,
            point,
            beyond: [OPEN, CLOSED, OPEN, CLOSED],
        }
    }

    /// v: how many numbers are live.
    pub fn v(&self) -> usize {
        live::count(&self.live)
    }

    /// Whether a number is live.
    pub fn is_live(&self, number: u32) -> bool {
        belongs(&self.live, number)
    }

    /// The live numbers, the lowest first.
    pub fn live_numbers(&self) -> Vec<u32> {
        live_numbers(&self.live)
    }

    /// The coordinates of the live numbers, end to end.
    pub fn live_points(&self) -> Vec<i32> {
        let numbers = self.live_numbers().into_iter();
        numbers
            .flat_map(|number| self.point_of(number).to_vec())
            .collect()
    }

    /// The first v places of the order.
    pub fn slots(&self) -> &[u32] {
        &self.order[..self.v()]
    }

    /// The point of this number.
    pub fn point_of(&self, number: u32) -> &[i32] {
        second::shelf::point(self.k, &self.points, number)
    }

    /// The faces of an accepted call.
    pub fn faces(&self) -> Vec<Face> {
        second::region::faces(self.k, self.h, &self.normals, &self.offsets, &self.marks)
    }

    /// The same with these live bytes.
    pub fn with_live(&self, live: Vec<u8>) -> Lent {
        Lent {
            live,
            ..self.clone()
        }
    }

    /// The same with other coordinates for each dead number, where there is one.
    pub fn with_other_dead(&self) -> Option<Lent> {
        let mut changed = self.clone();
        let dead = changed.points.chunks_mut(self.k.max(1)).zip(&self.live);
        for (point, _) in dead.filter(|(_, byte)| **byte == DEAD) {
            for x in point {
                *x = x.wrapping_mul(-65_539).wrapping_add(77_777);
            }
        }
        (changed != *self).then_some(changed)
    }

    /// The same with another order in the first places, and what stands behind it kept.
    pub fn with_order(&self, order: &[u32]) -> Lent {
        let mut changed = self.clone();
        changed.order[..order.len()].copy_from_slice(order);
        changed
    }

    /// The same with the faces of a region, all closed.
    pub fn with_faces(&self, normals: Vec<i32>, offsets: Vec<i64>) -> Lent {
        Lent {
            h: offsets.len(),
            marks: vec![CLOSED; offsets.len()],
            normals,
            offsets,
            ..self.clone()
        }
    }

    /// The same with these marks.
    pub fn with_marks(&self, marks: Vec<u8>) -> Lent {
        Lent {
            marks,
            ..self.clone()
        }
    }

    /// The same with the point of this number for the one-point test.
    pub fn with_point(&self, number: u32) -> Lent {
        Lent {
            point: self.point_of(number).to_vec(),
            ..self.clone()
        }
    }

    /// The same with this number for the explain call.
    pub fn with_number(&self, number: u32) -> Lent {
        Lent {
            number,
            ..self.clone()
        }
    }

    /// The same with this face of an accepted call alone.
    pub fn with_face_alone(&self, face: usize) -> Lent {
        let none = self.with_faces(Vec::new(), Vec::new());
        none.with_face(&self.faces()[face])
    }

    /// The same with one more face.
    pub fn with_face(&self, face: &Face) -> Lent {
        let mut changed = self.clone();
        changed.h += 1;
        changed.normals.extend(&face.normal);
        changed.offsets.push(face.offset);
        changed.marks.push(face.mark);
        changed
    }

    /// The same with the faces of another region after its own.
    pub fn with_more_faces(&self, region: &Lent) -> Lent {
        Lent {
            h: self.h + region.h,
            normals: [&self.normals[..], &region.normals].concat(),
            offsets: [&self.offsets[..], &region.offsets].concat(),
            marks: [&self.marks[..], &region.marks].concat(),
            ..self.clone()
        }
    }

    /// The same with other numbers behind place v of both buffers and `beyond` the slices, and other first
    /// contents of the list buffer.
    pub fn with_other_behind(&self) -> Lent {
        let mut changed = self.clone();
        let behind = changed.order.iter_mut().skip(self.v());
        for number in behind.chain(&mut changed.list) {
            *number = number.wrapping_mul(5).wrapping_add(7);
        }
        changed.beyond = [7, 255, 2, 128];
        changed
    }

    /// The same region with closed faces alone, where one is open and the offsets leave room: a sum is strictly greater than m
    /// exactly where it is at least m + 1.
    pub fn with_open_as_closed(&self) -> Option<Lent> {
        let mut changed = self.clone();
        let mut moved = false;
        for (mark, m) in changed.marks.iter_mut().zip(&mut changed.offsets) {
            if *mark == OPEN && (-MOST_OFFSET..MOST_OFFSET).contains(m) {
                (*mark, *m, moved) = (CLOSED, *m + 1, true);
            }
        }
        moved.then_some(changed)
    }

    /// The calls that list and screen must answer as this one, and in what they differ from it.
    pub fn alike(&self) -> Vec<(&'static str, Lent)> {
        let behind = ("by what is behind", self.with_other_behind());
        let closed = self.with_open_as_closed();
        let closed = closed.map(|other| ("by closed faces in place of open ones", other));
        let dead = self.with_other_dead();
        let dead = dead.map(|other| ("by other dead coordinates", other));
        [behind].into_iter().chain(closed).chain(dead).collect()
    }
}

/// Makes a lent slice one shorter.
pub fn shorten<T>(places: &mut Vec<T>) {
    places.pop();
}

impl fmt::Debug for Lent {
    /// The sizes, and the numbers only where they are few.
    fn fmt(&self, out: &mut fmt::Formatter<'_>) -> fmt::Result {
        write!(out, "k {}, n {}, h {}", self.k, self.n, self.h)?;
        write!(out, ", number {}", self.number)?;
        if self.points.len() + self.order.len() + self.list.len() + self.normals.len() > 200 {
            return Ok(());
        }
        let buffers = (&self.points, &self.order, &self.list);
        let faces = (&self.normals, &self.offsets, &self.marks);
        write!(out, ", points {:?}, live {:?}", buffers.0, self.live)?;
        write!(out, ", order {:?}", buffers.1)?;
        write!(out, ", normals {:?}, offsets {:?}", faces.0, faces.1)?;
        write!(out, ", marks {:?}", faces.2)?;
        write!(out, ", list {:?}, point {:?}", buffers.2, self.point)
    }
}
