//! Whether any point is inside a region.

/// The first point inside a region, or that there is none, and what the answer cost.
#[must_use]
#[derive(Clone, Copy, Debug, PartialEq, Eq)]
pub struct Screening {
    found: Option<u32>,
    visits: u32,
}

impl Screening {
    /// The screening that found this number, or none.
    pub(crate) fn new(found: Option<u32>, visits: u32) -> Screening {
        Screening { found, visits }
    }

    /// The number of the first point inside, in shelf order: the first that a
    /// [listing](crate::Listing::inside) has. None where no point is inside.
    pub fn found(&self) -> Option<u32> {
        self.found
    }

    /// The visits: how many of the slots up to and including the found one are open, in the sense of
    /// [`Listing::visits`](crate::Listing::visits); where none is found, how many of all.
    ///
    /// ```
    /// use hornherder::{Region, Shelf};
    ///
    /// let shelf = Shelf::new(1, vec![0, 10])?;
    /// let up_to_5 = Region::everywhere(1)?.with_face(&[-1], -5)?;
    /// let screening = shelf.screen(&up_to_5)?;
    /// assert_eq!(screening.found(), Some(0));
    /// assert_eq!(screening.visits(), 1); // the root is open too, but to the right of what is found
    /// # Ok::<(), hornherder::Refusal>(())
    /// ```
    pub fn visits(&self) -> u32 {
        self.visits
    }
}
