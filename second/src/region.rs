//! Faces, regions and the boxes of branches.

use std::cmp::Ordering;

/// The mark of a closed face: it owns the points on it.
pub const CLOSED: u8 = 0;

/// The mark of an open face: the points on it are below.
pub const OPEN: u8 = 1;

/// A face: its normal, its offset m and its mark.
#[derive(Clone, Debug, PartialEq, Eq)]
pub struct Face {
    pub normal: Vec<i32>,
    pub offset: i64,
    pub mark: u8,
}

/// A box: the least and the greatest coordinate in each dimension.
#[derive(Clone, Debug, PartialEq, Eq)]
pub struct BranchBox {
    pub least: Vec<i32>,
    pub greatest: Vec<i32>,
}

/// The `h` faces of a region, taken out of the three slices.
pub fn faces(k: usize, h: usize, normals: &[i32], offsets: &[i64], marks: &[u8]) -> Vec<Face> {
    (0..h)
        .map(|face| Face {
            normal: normals[face * k..(face + 1) * k].to_vec(),
            offset: offsets[face],
            mark: marks[face],
        })
        .collect()
}

/// The sum of the products of the normal and the point.
pub fn sum_of_products(normal: &[i32], x: &[i32]) -> i128 {
    let products = normal.iter().zip(x);
    products.map(|(&a, &b)| i128::from(a) * i128::from(b)).sum()
}

/// The distance number of the point from the face: "the sum of products minus
/// m", with its sign.
pub fn distance_number(face: &Face, x: &[i32]) -> i128 {
    sum_of_products(&face.normal, x) - i128::from(face.offset)
}

/// Whether the point is above the face: "Negative is below; zero is on the face,
/// above it if closed and below it if open". A box corner is tested as a point is.
pub fn above(face: &Face, x: &[i32]) -> bool {
    match distance_number(face, x).cmp(&0) {
        Ordering::Less => false,
        Ordering::Equal => face.mark == CLOSED,
        Ordering::Greater => true,
    }
}

/// Whether the point is below the face: not above it.
pub fn below(face: &Face, x: &[i32]) -> bool {
    !above(face, x)
}

/// Whether the point is inside the region: above every face.
pub fn inside(faces: &[Face], x: &[i32]) -> bool {
    faces.iter().all(|face| above(face, x))
}

/// The corner of the box furthest against the normal: the least coordinate
/// where the component is 0 or more, else the greatest.
pub fn corner_against(face: &Face, bx: &BranchBox) -> Vec<i32> {
    let component = |s: usize| face.normal[s];
    (0..face.normal.len())
        .map(|s| match component(s) >= 0 {
            true => bx.least[s],
            false => bx.greatest[s],
        })
        .collect()
}

/// The opposite corner: the greatest coordinate where the component is 0 or
/// more, else the least.
pub fn corner_along(face: &Face, bx: &BranchBox) -> Vec<i32> {
    let component = |s: usize| face.normal[s];
    (0..face.normal.len())
        .map(|s| match component(s) >= 0 {
            true => bx.greatest[s],
            false => bx.least[s],
        })
        .collect()
}

/// Whether the box is wholly above the face.
pub fn wholly_above(face: &Face, bx: &BranchBox) -> bool {
    above(face, &corner_against(face, bx))
}

/// Whether the box is wholly below the face.
pub fn wholly_below(face: &Face, bx: &BranchBox) -> bool {
    below(face, &corner_along(face, bx))
}

/// Whether a branch with this box is settled: wholly below at least one face,
/// or wholly above all of them.
pub fn settled(faces: &[Face], bx: &BranchBox) -> bool {
    let below_one = faces.iter().any(|face| wholly_below(face, bx));
    let above_all = faces.iter().all(|face| wholly_above(face, bx));
    below_one || above_all
}

/// Whether a branch with this box is open: not settled.
pub fn open(faces: &[Face], bx: &BranchBox) -> bool {
    !settled(faces, bx)
}
