//! By how much a point is inside or outside: the least distance number.

use crate::region::{distance_number, Face};

/// The distance numbers of the point, one for each face in the faces' order.
pub fn distance_numbers(faces: &[Face], x: &[i32]) -> Vec<i128> {
    faces.iter().map(|face| distance_number(face, x)).collect()
}

/// The margin: "the least distance number over its faces", whatever their marks.
/// There is none where there are no faces.
pub fn margin(faces: &[Face], x: &[i32]) -> Option<i128> {
    distance_numbers(faces, x).into_iter().min()
}

/// The lowest-numbered face whose distance number is the margin.
pub fn face_of_margin(faces: &[Face], x: &[i32]) -> Option<usize> {
    let least = margin(faces, x)?;
    let numbers = distance_numbers(faces, x);
    numbers.into_iter().position(|number| number == least)
}
