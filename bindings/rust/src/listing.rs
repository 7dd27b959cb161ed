//! The points inside and outside a region.

use std::iter::{Copied, Rev};
use std::slice::Iter;

/// The numbers outside a region, in shelf order.
pub type Outside<'l> = Copied<Rev<Iter<'l, u32>>>;

/// The numbers of the points inside and outside a region, each once and in shelf order, in the buffer
/// that was lent for them.
#[must_use]
#[derive(Clone, Copy, Debug, PartialEq, Eq)]
pub struct Listing<'l> {
    inside: &'l [u32],
    outside: &'l [u32],
    visits: u32,
}

impl<'l> Listing<'l> {
    /// The listing of these two parts of a list buffer, the outside one backwards.
    pub(crate) fn new(inside: &'l [u32], outside: &'l [u32], visits: u32) -> Listing<'l> {
        Listing {
            inside,
            outside,
            visits,
        }
    }

    /// The numbers inside, in shelf order.
    pub fn inside(&self) -> &'l [u32] {
        self.inside
    }

    /// The numbers outside, in shelf order. The buffer holds them backwards, so this is an iterator and
    /// no slice. It knows its length and can be run from either end.
    ///
    /// ```
    /// use hornherder::{Region, Shelf};
    ///
    /// let shelf = Shelf::new(1, vec![5, 6, 7, 8])?;
    /// let region = Region::everywhere(1)?.with_face(&[1], 8)?;
    /// let mut buffer = vec![0; shelf.len()];
    /// let listing = shelf.list(&region, &mut buffer)?;
    /// assert_eq!(listing.outside().len(), 3);
    /// assert_eq!(listing.outside().collect::<Vec<_>>(), [0, 1, 2]);
    /// assert_eq!(listing.outside().next_back(), Some(2));
    /// # Ok::<(), hornherder::Refusal>(())
    /// ```
    pub fn outside(&self) -> Outside<'l> {
        self.outside.iter().rev().copied()
    }

    /// The visits: how many slots are open, that is, have a branch whose box is neither wholly below a
    /// face nor wholly above them all.
    pub fn visits(&self) -> u32 {
        self.visits
    }
}
