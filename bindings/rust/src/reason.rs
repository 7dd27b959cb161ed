//! Why a point is inside a region or outside.

use crate::placing::Margin;
use crate::raw;
use std::fmt;

/// Why a point of a shelf is inside a region or outside.
///
/// A branch of the shelf is settled where its box lies wholly above all faces, or wholly below one; so do
/// all its points then. Of the settled branches that hold the point, the one nearest the root is the reason;
/// where there is none, the point's own test is. Written out, a reason is a sentence:
///
/// ```
/// use hornherder::{Region, Shelf};
///
/// // Seven points in one dimension. Face 0 is x >= 30, face 1 is x < 70.
/// let shelf = Shelf::new(1, vec![10, 20, 30, 40, 50, 60, 70])?;
/// let region = Region::everywhere(1)?.with_face(&[1], 30)?.with_open_face(&[-1], -70)?;
/// for (number, sentence) in [
///     (0, "outside: below face 0 by 20, with the whole branch at slot 0"),
///     (1, "outside: below face 0 by 10, by its own test at slot 1"),
///     (2, "inside: above every face, by its own test at slot 2"),
///     (4, "inside: above every face, with the whole branch at slot 4"),
///     (6, "outside: on face 1, which is open, by its own test at slot 6"),
/// ] {
///     assert_eq!(shelf.explain(&region, number)?.to_string(), sentence);
/// }
/// # Ok::<(), hornherder::Refusal>(())
/// ```
#[must_use]
#[derive(Clone, Copy, Debug, PartialEq, Eq)]
pub enum Reason {
    /// Inside, settled with a whole branch: its box lies wholly above all faces.
    InsideWithBranch {
        /// The slot of the branch's node.
        slot: usize,
    },
    /// Inside by its own test: no settled branch holds the point, and it is above every face.
    InsideByItself {
        /// The point's own slot.
        slot: usize,
    },
    /// Outside, settled with a whole branch: its box lies wholly below a face.
    OutsideWithBranch {
        /// The slot of the branch's node.
        slot: usize,
        /// The lowest-numbered face that the box lies wholly below, and the point's margin to it.
        margin: Margin,
    },
    /// Outside by its own test: no settled branch holds the point, and it is below a face.
    OutsideByItself {
        /// The point's own slot.
        slot: usize,
        /// The lowest-numbered face that the point is below, and its margin to it.
        margin: Margin,
    },
}

impl Reason {
    /// The reason that the call answered, which was done.
    pub(crate) fn new(answer: raw::Explaining) -> Reason {
        let slot = answer.slot.into();
        let margin = Margin {
            face: answer.face.into(),
            amount: answer.margin,
        };
        match answer.reason {
            raw::INSIDE_WITH_BRANCH => Reason::InsideWithBranch { slot },
            raw::INSIDE_BY_ITSELF => Reason::InsideByItself { slot },
            raw::OUTSIDE_WITH_BRANCH => Reason::OutsideWithBranch { slot, margin },
            _ => Reason::OutsideByItself { slot, margin },
        }
    }

    /// Whether the point is inside.
    pub fn inside(&self) -> bool {
        self.margin().is_none()
    }

    /// Whether it is settled with a whole branch; else it is by its own test.
    pub fn with_branch(&self) -> bool {
        matches!(
            self,
            Reason::InsideWithBranch { .. } | Reason::OutsideWithBranch { .. }
        )
    }

    /// The slot of the branch's node, or, by its own test, the point's own.
    pub fn slot(&self) -> usize {
        match *self {
            Reason::InsideWithBranch { slot }
            | Reason::InsideByItself { slot }
            | Reason::OutsideWithBranch { slot, .. }
            | Reason::OutsideByItself { slot, .. } => slot,
        }
    }

    /// The face that puts the point outside, and the point's margin to it: negative, or 0 where the point lies
    /// on it and it is open. None where the point is inside.
    ///
    /// It need not be the least margin, which [`Region::place`](crate::Region::place) gives.
    pub fn margin(&self) -> Option<Margin> {
        match *self {
            Reason::OutsideWithBranch { margin, .. } | Reason::OutsideByItself { margin, .. } => {
                Some(margin)
            }
            _ => None,
        }
    }
}

impl fmt::Display for Reason {
    fn fmt(&self, out: &mut fmt::Formatter<'_>) -> fmt::Result {
        match self.margin() {
            None => write!(out, "inside: above every face")?,
            Some(Margin { face, amount: 0 }) => {
                write!(out, "outside: on face {face}, which is open")?
            }
            Some(Margin { face, amount }) => {
                let by = amount.unsigned_abs();
                write!(out, "outside: below face {face} by {by}")?
            }
        }
        let slot = self.slot();
        match self.with_branch() {
            true => write!(out, ", with the whole branch at slot {slot}"),
            false => write!(out, ", by its own test at slot {slot}"),
        }
    }
}
