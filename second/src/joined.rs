//! The regions of one call: the faces of each, out of the joined slices, and the
//! places and counts of all, region after region.

use crate::lists::{inside_and_outside, places};
use crate::region::{faces, Face};
use crate::shelf::Shelf;
use crate::visits::visits;

/// The total of faces: the face counts of all regions added up.
pub fn total_of_faces(face_counts: &[u32]) -> usize {
    face_counts.iter().map(|&count| count as usize).sum()
}

/// The faces of each region: "their faces end to end with a face count each".
pub fn faces_of_regions(
    k: usize,
    face_counts: &[u32],
    normals: &[i32],
    offsets: &[i64],
    marks: &[u8],
) -> Vec<Vec<Face>> {
    let total = total_of_faces(face_counts);
    let joined = faces(k, total, normals, offsets, marks);
    (0..face_counts.len())
        .map(|region| faces_of_one(face_counts, &joined, region))
        .collect()
}

/// The faces of one region: as many as its face count, after the faces of all
/// regions before it.
fn faces_of_one(face_counts: &[u32], joined: &[Face], region: usize) -> Vec<Face> {
    let before = total_of_faces(&face_counts[..region]);
    let count = face_counts[region] as usize;
    joined[before..before + count].to_vec()
}

/// The places of all regions, each region's v after those of the region before.
pub fn places_of_regions(shelf: &Shelf, regions: &[Vec<Face>]) -> Vec<u32> {
    let each = regions.iter().map(|faces| places_of_one(shelf, faces));
    each.flatten().collect()
}

/// The v places of one region, as its list alone has them.
fn places_of_one(shelf: &Shelf, faces: &[Face]) -> Vec<u32> {
    let (within, without) = inside_and_outside(shelf, faces);
    places(&within, &without)
}

/// The counts of all regions, each region's three after those of the region
/// before.
pub fn counts_of_regions(shelf: &Shelf, regions: &[Vec<Face>]) -> Vec<u32> {
    let each = regions.iter().map(|faces| counts_of_one(shelf, faces));
    each.flatten().collect()
}

/// The three counts of one region: inside, outside, visits.
fn counts_of_one(shelf: &Shelf, faces: &[Face]) -> [u32; 3] {
    let (within, without) = inside_and_outside(shelf, faces);
    let (inside, outside) = (within.len() as u32, without.len() as u32);
    [inside, outside, visits(shelf, faces)]
}
