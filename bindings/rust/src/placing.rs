//! Whether one point is inside a region, and by how much.

use crate::raw;

/// Whether a point is inside a region, and by how much.
#[must_use]
#[derive(Clone, Copy, Debug, PartialEq, Eq)]
pub struct Placing {
    inside: bool,
    margin: Option<Margin>,
}

/// By how much a point is above a face or below it.
#[derive(Clone, Copy, Debug, PartialEq, Eq)]
pub struct Margin {
    /// The number of the face, by which [`Region::faces`](crate::Region::faces) and
    /// [`Region::marks`](crate::Region::marks) have it.
    pub face: usize,
    /// The sum of the products of the point's coordinates with the face's normal, less the offset. Negative
    /// is below the face; 0 is on it, which is above a closed face and below an open one; positive is above.
    pub amount: i64,
}

impl Placing {
    /// The placing that the call answered, which was done.
    pub(crate) fn new(answer: raw::Placing) -> Placing {
        let margin = Margin {
            face: answer.face.into(),
            amount: answer.margin,
        };
        Placing {
            inside: answer.inside == 1,
            margin: (answer.measured == 1).then_some(margin),
        }
    }

    /// Whether the point is inside.
    pub fn inside(&self) -> bool {
        self.inside
    }

    /// The least margin over all faces, at the lowest-numbered face that has it. None where there are no
    /// faces.
    ///
    /// The least is the least number, whatever the marks, so an amount of 0 does not say whether the point is
    /// inside:
    ///
    /// ```
    /// use hornherder::{Margin, Region};
    ///
    /// // The point lies on both faces. Face 0 is closed, but face 1 is open.
    /// let region = Region::everywhere(2)?.with_face(&[1, 0], 5)?.with_open_face(&[0, 1], 5)?;
    /// let placing = region.place(&[5, 5])?;
    /// assert_eq!(placing.margin(), Some(Margin { face: 0, amount: 0 }));
    /// assert!(!placing.inside());
    /// # Ok::<(), hornherder::Refusal>(())
    /// ```
    pub fn margin(&self) -> Option<Margin> {
        self.margin
    }
}
