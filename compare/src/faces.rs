//! Regions of every kind that makes a difference.

use crate::chance::Chance;
use crate::lent::MOST_OFFSET;
use second::region::{sum_of_products, Face, CLOSED, OPEN};

/// The kinds of faces.
#[derive(Clone, Copy, Debug, PartialEq, Eq)]
pub enum Kind {
    /// With small components, through a point or beside one.
    Slanted,
    /// With components of any size, through a point or beside one.
    Steep,
    /// With one component that is not 0, through a point or beside one.
    Square,
    /// With a normal of zeros.
    Zero,
    /// With components and an offset at the ends of their ranges.
    Extreme,
    /// The face before it turned round, so that they touch, leave a gap, or leave nothing.
    Against,
    /// The face before it once more.
    Again,
}

/// Every kind.
const ANY: [Kind; 7] = [
    Kind::Slanted,
    Kind::Steep,
    Kind::Square,
    Kind::Zero,
    Kind::Extreme,
    Kind::Against,
    Kind::Again,
];

/// The kinds that make square faces where the first is one.
const SQUARE: [Kind; 4] = [Kind::Square, Kind::Zero, Kind::Against, Kind::Again];

/// Normals and offsets of `h` faces near these points, of kinds that one region is likely to have together.
pub fn region(chance: &mut Chance, k: usize, points: &[i32], h: usize) -> (Vec<i32>, Vec<i64>) {
    let kinds = match chance.below(5) {
        0 => &ANY[..],
        1 => &SQUARE[..],
        2 => &[Kind::Square],
        3 => &[Kind::Slanted],
        _ => return around(chance, k, points, h),
    };
    let mut faces: Vec<Face> = Vec::new();
    for _ in 0..h {
        let kind = chance.one_of(kinds);
        let face = face(chance, kind, k, points, faces.last());
        faces.push(face);
    }
    slices(faces)
}

/// Slanted faces turned so that one of the points is inside or on each of them.
fn around(chance: &mut Chance, k: usize, points: &[i32], h: usize) -> (Vec<i32>, Vec<i64>) {
    let middle = point(chance, k, points);
    let room = chance.one_of(&[0, 10, 1_000, 100_000]);
    let faces = (0..h).map(|_| {
        let normal = components(chance, k, 20);
        let offset = through(&normal, &middle) - chance.between(0, room);
        Face {
            normal,
            offset,
            mark: CLOSED,
        }
    });
    slices(faces.collect())
}

/// One face of this kind near these points. What turns round or repeats the last face makes a square one
/// where there is none.
fn face(chance: &mut Chance, kind: Kind, k: usize, points: &[i32], last: Option<&Face>) -> Face {
    match (kind, last) {
        (Kind::Again, Some(last)) => last.clone(),
        (Kind::Against, Some(last)) => against(chance, last),
        _ => fresh(chance, kind, k, points),
    }
}

/// A face of this kind that owes nothing to another.
fn fresh(chance: &mut Chance, kind: Kind, k: usize, points: &[i32]) -> Face {
    let normal = match kind {
        Kind::Slanted => components(chance, k, 5),
        Kind::Steep => components(chance, k, 32_767),
        Kind::Square | Kind::Against | Kind::Again => square(chance, k),
        Kind::Zero => vec![0; k],
        Kind::Extreme => (0..k).map(|_| chance.one_of(&[-32_767, 32_767])).collect(),
    };
    let near = through(&normal, &point(chance, k, points)) + chance.one_of(&[0, 0, 0, -1, 1, 7]);
    let offset = match kind {
        Kind::Zero => chance.one_of(&[-MOST_OFFSET, -1, 0, 0, 1, MOST_OFFSET]),
        Kind::Extreme => chance.one_of(&[near, near, -MOST_OFFSET, MOST_OFFSET]),
        _ => near,
    };
    Face {
        normal,
        offset,
        mark: CLOSED,
    }
}

/// A face turned round: what was above is below, but for a strip that both or neither has.
fn against(chance: &mut Chance, face: &Face) -> Face {
    let offset = -face.offset + chance.between(-2, 2);
    Face {
        offset: offset.clamp(-MOST_OFFSET, MOST_OFFSET),
        mark: CLOSED,
        ..mirror(face)
    }
}

/// The mirror of a face: what is above the one is below the other, and each point is above one of them.
pub fn mirror(face: &Face) -> Face {
    Face {
        normal: face.normal.iter().map(|component| -component).collect(),
        offset: -face.offset,
        mark: if face.mark == OPEN { CLOSED } else { OPEN },
    }
}

/// One face of any kind with either mark, more often than not exactly through one of the points.
pub fn marked(chance: &mut Chance, k: usize, points: &[i32]) -> Face {
    let kind = chance.one_of(&ANY);
    let face = fresh(chance, kind, k, points);
    let exact = through(&face.normal, &point(chance, k, points));
    Face {
        offset: chance.one_of(&[exact, face.offset]),
        mark: chance.one_of(&[CLOSED, OPEN]),
        ..face
    }
}

/// The margin of a point to a face: the sum of products less the offset.
pub fn margin(face: &Face, point: &[i32]) -> i64 {
    through(&face.normal, point) - face.offset
}

/// A face of any kind that has the point at this margin, with either mark, where one comes up whose offset is in range.
pub fn at_margin(chance: &mut Chance, points: &[i32], point: &[i32], margin: i64) -> Option<Face> {
    let face = marked(chance, point.len(), points);
    let offset = through(&face.normal, point) - margin;
    let fits = (-MOST_OFFSET..=MOST_OFFSET).contains(&offset);
    fits.then_some(Face { offset, ..face })
}

/// Whether a point lies exactly on a face.
pub fn lies_on(face: &Face, point: &[i32]) -> bool {
    margin(face, point) == 0
}

/// Marks of `h` faces: all closed, all open, or each of them either.
pub fn marks(chance: &mut Chance, h: usize) -> Vec<u8> {
    let some = chance.one_of(&[&[CLOSED][..], &[OPEN], &[CLOSED, OPEN]]);
    (0..h).map(|_| chance.one_of(some)).collect()
}

/// Components from `-most` to `most`.
fn components(chance: &mut Chance, k: usize, most: i64) -> Vec<i32> {
    (0..k).map(|_| chance.between(-most, most) as i32).collect()
}

/// A normal with one component that is not 0.
fn square(chance: &mut Chance, k: usize) -> Vec<i32> {
    let mut normal = vec![0; k];
    normal[chance.below(k)] = chance.one_of(&[1, -1, 3, -2, 32_767, -32_767]);
    normal
}

/// One of the points, or the origin where there is none.
fn point(chance: &mut Chance, k: usize, points: &[i32]) -> Vec<i32> {
    match points.len() / k {
        0 => vec![0; k],
        n => {
            let number = chance.below(n);
            points[number * k..(number + 1) * k].to_vec()
        }
    }
}

/// The offset with which a face goes exactly through a point.
fn through(normal: &[i32], point: &[i32]) -> i64 {
    sum_of_products(normal, point) as i64
}

/// The faces as the two slices of a call.
fn slices(faces: Vec<Face>) -> (Vec<i32>, Vec<i64>) {
    let offsets = faces.iter().map(|face| face.offset).collect();
    let normals = faces.into_iter().flat_map(|face| face.normal).collect();
    (normals, offsets)
}
