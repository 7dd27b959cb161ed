//! A region: the points above every one of its faces.

use crate::placing::Placing;
use crate::raw;
use crate::refusal::{done, same_version, Refusal};
use crate::MAX_DIMENSION;

/// A region cut by flat faces, each closed or open. A point is above a closed face when the sum of the
/// products of its coordinates with the face's normal is at least the offset, above an open one when it is
/// greater, and inside the region when it is above every face.
#[derive(Clone, Debug, PartialEq, Eq)]
pub struct Region {
    k: usize,
    normals: Vec<i32>,
    offsets: Vec<i64>,
    marks: Vec<u8>,
}

impl Region {
    /// The region with no faces: every point of `k` coordinates is inside.
    pub fn everywhere(k: usize) -> Result<Region, Refusal> {
        Region::new(k, Vec::new(), Vec::new())
    }

    /// The region with these faces, all closed: `k` components of a normal for each, face 0 first, and an
    /// offset for each.
    ///
    /// ```
    /// use hornherder::{Refusal, Region};
    ///
    /// let region = Region::new(2, vec![1, 1, -1, 0], vec![7, -6])?;
    /// assert_eq!(region.h(), 2);
    /// let refused = Region::new(2, vec![1, 1, -1], vec![7, -6]);
    /// assert_eq!(refused, Err(Refusal::FacesLength));
    /// # Ok::<(), hornherder::Refusal>(())
    /// ```
    pub fn new(k: usize, normals: Vec<i32>, offsets: Vec<i64>) -> Result<Region, Refusal> {
        let marks = vec![raw::CLOSED_FACE; offsets.len()];
        Region::with_marks(k, normals, offsets, marks)
    }

    /// The region with these faces, and a mark for each: [`raw::CLOSED_FACE`] or [`raw::OPEN_FACE`].
    ///
    /// ```
    /// use hornherder::{Refusal, Region};
    ///
    /// // From 3 up to but not including 5.
    /// let region = Region::with_marks(1, vec![1, -1], vec![3, -5], vec![0, 1])?;
    /// assert!(region.contains(&[3])? && !region.contains(&[5])?);
    /// let refused = Region::with_marks(1, vec![1, -1], vec![3, -5], vec![0, 2]);
    /// assert_eq!(refused, Err(Refusal::Marks));
    /// # Ok::<(), hornherder::Refusal>(())
    /// ```
    pub fn with_marks(
        k: usize,
        normals: Vec<i32>,
        offsets: Vec<i64>,
        marks: Vec<u8>,
    ) -> Result<Region, Refusal> {
        same_version()?;
        let origin = &[0; MAX_DIMENSION][..k.min(MAX_DIMENSION)];
        done(raw::place(k, offsets.len(), origin, &normals, &offsets, &marks).code)?;
        Ok(Region {
            k,
            normals,
            offsets,
            marks,
        })
    }

    /// This region with one more face, a closed one: a point on it is above it.
    ///
    /// ```
    /// use hornherder::Region;
    ///
    /// // From 3 to 5, both ends inside.
    /// let region = Region::everywhere(1)?.with_face(&[1], 3)?.with_face(&[-1], -5)?;
    /// assert!(region.contains(&[3])? && region.contains(&[5])?);
    /// assert!(!region.contains(&[6])?);
    /// # Ok::<(), hornherder::Refusal>(())
    /// ```
    pub fn with_face(self, normal: &[i32], offset: i64) -> Result<Region, Refusal> {
        self.with_marked_face(normal, offset, raw::CLOSED_FACE)
    }

    /// This region with one more face, an open one: a point on it is not above it.
    ///
    /// ```
    /// use hornherder::Region;
    ///
    /// // More than 3.
    /// let region = Region::everywhere(1)?.with_open_face(&[1], 3)?;
    /// assert!(!region.contains(&[3])? && region.contains(&[4])?);
    /// # Ok::<(), hornherder::Refusal>(())
    /// ```
    ///
    /// Regions that lie side by side share no point and lose none when one of them has the face between
    /// them closed, and the other the same face open, with its normal and its offset negated:
    ///
    /// ```
    /// use hornherder::{Region, Shelf};
    ///
    /// // Two bins, x + y >= 6 and x + y < 6. Points 0 and 1 lie on the face between them.
    /// let shelf = Shelf::new(2, vec![1, 5, 4, 2, 4, 8, 7, 1, 6, 6, 2, 2])?;
    /// let upper = Region::everywhere(2)?.with_face(&[1, 1], 6)?;
    /// let lower = Region::everywhere(2)?.with_open_face(&[-1, -1], -6)?;
    ///
    /// let (mut some, mut others) = ([0; 6], [0; 6]);
    /// let upper = shelf.list(&upper, &mut some)?;
    /// let lower = shelf.list(&lower, &mut others)?;
    /// assert_eq!(upper.inside(), [1, 0, 2, 3, 4]);
    /// assert_eq!(lower.inside(), [5]);
    /// assert!(upper.outside().eq(lower.inside().iter().copied()));
    /// # Ok::<(), hornherder::Refusal>(())
    /// ```
    pub fn with_open_face(self, normal: &[i32], offset: i64) -> Result<Region, Refusal> {
        self.with_marked_face(normal, offset, raw::OPEN_FACE)
    }

    /// This region with one more face, which has this mark.
    fn with_marked_face(
        mut self,
        normal: &[i32],
        offset: i64,
        mark: u8,
    ) -> Result<Region, Refusal> {
        self.normals.extend(normal);
        self.offsets.push(offset);
        self.marks.push(mark);
        Region::with_marks(self.k, self.normals, self.offsets, self.marks)
    }

    /// Whether the point is inside. Refused are a point that has not `k` coordinates, and a coordinate
    /// out of range.
    ///
    /// ```
    /// use hornherder::{Refusal, Region};
    ///
    /// let region = Region::everywhere(2)?.with_face(&[1, 1], 6)?;
    /// assert_eq!(region.contains(&[4, 2]), Ok(true)); // a point on a closed face is above it
    /// assert_eq!(region.contains(&[4]), Err(Refusal::PointsLength));
    /// # Ok::<(), hornherder::Refusal>(())
    /// ```
    pub fn contains(&self, point: &[i32]) -> Result<bool, Refusal> {
        Ok(self.place(point)?.inside())
    }

    /// Whether the point is inside, and by how much: its least margin over all faces, and which face has it.
    /// Refused is what [`contains`](Region::contains) refuses.
    ///
    /// ```
    /// use hornherder::{Margin, Region};
    ///
    /// // Face 0 is x >= 3, face 1 is x < 9.
    /// let region = Region::everywhere(1)?.with_face(&[1], 3)?.with_open_face(&[-1], -9)?;
    /// let margin = |face, amount| Some(Margin { face, amount });
    ///
    /// let below = region.place(&[1])?;
    /// assert!(!below.inside());
    /// assert_eq!(below.margin(), margin(0, -2));
    ///
    /// let on_the_closed_face = region.place(&[3])?;
    /// assert!(on_the_closed_face.inside());
    /// assert_eq!(on_the_closed_face.margin(), margin(0, 0));
    ///
    /// let on_the_open_face = region.place(&[9])?;
    /// assert!(!on_the_open_face.inside());
    /// assert_eq!(on_the_open_face.margin(), margin(1, 0));
    ///
    /// // 3 away from both: the lower-numbered face is named.
    /// let between = region.place(&[6])?;
    /// assert!(between.inside());
    /// assert_eq!(between.margin(), margin(0, 3));
    ///
    /// // With no faces there is no margin.
    /// let anywhere = Region::everywhere(1)?.place(&[6])?;
    /// assert!(anywhere.inside());
    /// assert_eq!(anywhere.margin(), None);
    /// # Ok::<(), hornherder::Refusal>(())
    /// ```
    pub fn place(&self, point: &[i32]) -> Result<Placing, Refusal> {
        let answer = raw::place(
            self.k,
            self.h(),
            point,
            &self.normals,
            &self.offsets,
            &self.marks,
        );
        done(answer.code)?;
        Ok(Placing::new(answer))
    }

    /// The dimension: how many components a normal has.
    pub fn k(&self) -> usize {
        self.k
    }

    /// How many faces there are.
    pub fn h(&self) -> usize {
        self.offsets.len()
    }

    /// The components of all normals, face 0 first.
    pub fn normals(&self) -> &[i32] {
        &self.normals
    }

    /// The offset of each face.
    pub fn offsets(&self) -> &[i64] {
        &self.offsets
    }

    /// The mark of each face: [`raw::CLOSED_FACE`] or [`raw::OPEN_FACE`].
    pub fn marks(&self) -> &[u8] {
        &self.marks
    }

    /// The normal and the offset of each face; [`marks`](Region::marks) says which of them are open.
    pub fn faces(&self) -> impl ExactSizeIterator<Item = (&[i32], i64)> {
        let offsets = self.offsets.iter().copied();
        self.normals.chunks_exact(self.k).zip(offsets)
    }
}
