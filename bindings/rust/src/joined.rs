//! Several regions as one call takes them.

use crate::region::Region;

/// The faces of several regions, end to end, and how many each region has.
#[derive(Default)]
pub(crate) struct Joined {
    pub(crate) face_counts: Vec<u32>,
    pub(crate) normals: Vec<i32>,
    pub(crate) offsets: Vec<i64>,
    pub(crate) marks: Vec<u8>,
}

impl Joined {
    /// Joins these regions for a shelf of this dimension. The normals of faces of another dimension are left
    /// out, so that the library misses them: joined with others they might come out even.
    pub(crate) fn new<'r>(k: usize, regions: impl IntoIterator<Item = &'r Region>) -> Joined {
        let mut joined = Joined::default();
        for region in regions {
            if region.k() == k {
                joined.normals.extend(region.normals());
            }
            joined.face_counts.push(region.h() as u32);
            joined.offsets.extend(region.offsets());
            joined.marks.extend(region.marks());
        }
        joined
    }
}
