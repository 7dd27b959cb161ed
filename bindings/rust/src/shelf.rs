//! A shelf: points and the one order that arranges them.

use crate::joined::Joined;
use crate::listing::Listing;
use crate::raw;
use crate::reason::Reason;
use crate::refusal::{done, same_version, Refusal};
use crate::region::Region;
use crate::screening::Screening;
use crate::MAX_REGIONS;
use std::borrow::Cow;

/// Points arranged as a k-d tree. It has [`numbers`](Shelf::numbers) numbers, of which the
/// [live](Shelf::live) ones, [`len`](Shelf::len) of them, have a point; the others are free.
/// [`take`](Shelf::take), [`withdraw`](Shelf::withdraw) and [`with_borrowed_order`](Shelf::with_borrowed_order)
/// leave the order alone: after them the calls that need the tree are refused with [`Refusal::NotTheTree`],
/// unless the order is the tree, until [`arrange`](Shelf::arrange) has seen to it.
///
/// Points, live bytes and order may be owned or borrowed: give a `Vec` or a slice. What is borrowed is copied
/// before it is changed. Two shelves are the same where their live numbers, the points of these and the slots are:
/// nothing depends on the coordinates of a number that is free.
#[derive(Clone, Debug)]
pub struct Shelf<'s> {
    pub(crate) k: usize,
    pub(crate) points: Cow<'s, [i32]>,
    pub(crate) live: Cow<'s, [u8]>,
    /// A place for each live number, unless it is borrowed; places behind these hold anything.
    pub(crate) order: Cow<'s, [u32]>,
    /// How many live numbers there are.
    pub(crate) count: usize,
}

impl<'s> Shelf<'s> {
    /// Arranges these points, `k` coordinates each, point 0 first. All of them are live.
    ///
    /// ```
    /// use hornherder::Shelf;
    ///
    /// let points = [3, 3, 3];
    /// let shelf = Shelf::new(1, &points[..])?;
    /// assert_eq!(shelf.order(), [0, 1, 2]); // ties go by number
    /// # Ok::<(), hornherder::Refusal>(())
    /// ```
    pub fn new(k: usize, points: impl Into<Cow<'s, [i32]>>) -> Result<Shelf<'s>, Refusal> {
        let points = points.into();
        let n = numbered(k, &points);
        let shelf = Shelf::with_order(k, points, vec![raw::LIVE; n], vec![NO_NUMBER; n]);
        Ok(shelf?.0)
    }

    /// Takes points, for each number its live byte, [`raw::LIVE`] or [`raw::DEAD`], and an order of before: arranges
    /// the live points unless the order is their tree already, and says whether it was. The coordinates of the other
    /// numbers may be any, and so may what the order holds; its places behind the last live number do not matter.
    ///
    /// ```
    /// use hornherder::{Refusal, Shelf};
    ///
    /// // The order of before number 1 was withdrawn: its first place is the tree of the one point left.
    /// let (shelf, already) = Shelf::with_order(1, vec![0, 10], vec![1, 0], vec![0, 1])?;
    /// assert_eq!((shelf.order(), already), (&[0][..], true));
    ///
    /// // With no order yet, any numbers will do.
    /// let (shelf, already) = Shelf::with_order(1, vec![30, i32::MAX, 20], vec![1, 0, 1], vec![0; 3])?;
    /// assert_eq!((shelf.order(), already), (&[2, 0][..], false));
    /// assert_eq!((shelf.numbers(), shelf.len()), (3, 2));
    ///
    /// let wrong = Shelf::with_order(1, vec![30, 20], vec![1, 2], vec![0; 2]);
    /// assert_eq!(wrong, Err(Refusal::LiveBytes));
    /// # Ok::<(), hornherder::Refusal>(())
    /// ```
    pub fn with_order(
        k: usize,
        points: impl Into<Cow<'s, [i32]>>,
        live: impl Into<Cow<'s, [u8]>>,
        order: Vec<u32>,
    ) -> Result<(Shelf<'s>, bool), Refusal> {
        same_version()?;
        let mut shelf = Shelf::of(k, points.into(), live.into(), order.into());
        let already = shelf.arrange()?;
        Ok((shelf, already))
    }

    /// Takes an order that is only borrowed, as from a file that is mapped to be read, as it is. Nothing is arranged
    /// and nothing tested: what is wrong is refused by the calls that need it, a wrong order with
    /// [`Refusal::NotTheTree`].
    ///
    /// ```
    /// use hornherder::{Refusal, Region, Shelf};
    ///
    /// let (points, live, order) = ([0, 10], [1, 1], [1, 0]);
    /// let mut shelf = Shelf::with_borrowed_order(1, &points[..], &live[..], &order)?;
    /// let everywhere = Region::everywhere(1)?;
    /// assert_eq!(shelf.screen(&everywhere), Err(Refusal::NotTheTree));
    ///
    /// // Arranged, the shelf has an order of its own.
    /// assert!(!shelf.arrange()?);
    /// assert_eq!(shelf.screen(&everywhere)?.found(), Some(0));
    /// # Ok::<(), hornherder::Refusal>(())
    /// ```
    pub fn with_borrowed_order(
        k: usize,
        points: impl Into<Cow<'s, [i32]>>,
        live: impl Into<Cow<'s, [u8]>>,
        order: &'s [u32],
    ) -> Result<Shelf<'s>, Refusal> {
        same_version()?;
        Ok(Shelf::of(k, points.into(), live.into(), order.into()))
    }

    /// The shelf of what was given, as it is.
    fn of(
        k: usize,
        points: Cow<'s, [i32]>,
        live: Cow<'s, [u8]>,
        order: Cow<'s, [u32]>,
    ) -> Shelf<'s> {
        let count = live.iter().filter(|byte| **byte == raw::LIVE).count();
        Shelf {
            k,
            points,
            live,
            order,
            count,
        }
    }

    /// The dimension: how many coordinates a point has.
    pub fn k(&self) -> usize {
        self.k
    }

    /// How many points there are, which is how many numbers are live.
    pub fn len(&self) -> usize {
        self.count
    }

    /// Whether there are no points.
    pub fn is_empty(&self) -> bool {
        self.count == 0
    }

    /// How many numbers there are, live ones and free ones.
    pub fn numbers(&self) -> usize {
        numbered(self.k, &self.points)
    }

    /// For each number its live byte: [`raw::LIVE`], or [`raw::DEAD`] where it is free.
    pub fn live(&self) -> &[u8] {
        &self.live
    }

    /// The coordinates of all numbers, number 0 first. Those of a free number are whatever stood there last.
    pub fn points(&self) -> &[i32] {
        &self.points
    }

    /// The coordinates of the point with this number, if there is one.
    pub fn point(&self, number: u32) -> Option<&[i32]> {
        let number = number as usize;
        let live = number < self.numbers() && self.live.get(number) == Some(&raw::LIVE);
        live.then(|| &self.points[number * self.k..][..self.k])
    }

    /// The number in each slot, as many as there are points, or fewer where the order was borrowed and is too short.
    /// After [`take`](Shelf::take) and [`withdraw`](Shelf::withdraw) it is what stood there before, until
    /// [`arrange`](Shelf::arrange).
    pub fn order(&self) -> &[u32] {
        &self.order[..self.count.min(self.order.len())]
    }

    /// Lists the points inside and outside a region into a buffer of at least [`len`](Shelf::len) places.
    /// The buffer can be used again once the listing is no longer needed; places behind the last point
    /// are left alone.
    ///
    /// ```
    /// use hornherder::{Region, Shelf};
    ///
    /// let shelf = Shelf::new(1, vec![30, 10, 20])?;
    /// let mut buffer = vec![0; shelf.len()];
    /// for (least, inside) in [(10, vec![1, 2, 0]), (20, vec![2, 0]), (31, vec![])] {
    ///     let region = Region::everywhere(1)?.with_face(&[1], least)?;
    ///     assert_eq!(shelf.list(&region, &mut buffer)?.inside(), inside);
    /// }
    /// # Ok::<(), hornherder::Refusal>(())
    /// ```
    ///
    /// Refused are a buffer with too few places, faces made for another dimension, and an order that is not the
    /// tree.
    ///
    /// The library checks the order first, though that of a shelf just arranged is right, and that is most of the
    /// call: see [what a call costs](crate).
    pub fn list<'l>(&self, region: &Region, buffer: &'l mut [u32]) -> Result<Listing<'l>, Refusal> {
        let answer = raw::list(
            self.k,
            self.numbers(),
            region.h(),
            &self.points,
            &self.live,
            &self.order,
            region.normals(),
            region.offsets(),
            region.marks(),
            buffer,
        );
        done(answer.code)?;
        let (inside, outside) = buffer[..self.len()].split_at(answer.inside as usize);
        Ok(Listing::new(inside, outside, answer.visits))
    }

    /// Lists the points inside and outside each of 1 to [`MAX_REGIONS`] regions into a buffer of at least
    /// [`len`](Shelf::len) places for each: a listing for each, in the order of the regions, as
    /// [`list`](Shelf::list) gives it for that region alone. The order is checked once for all, which as many
    /// calls of `list` do each time.
    ///
    /// ```
    /// use hornherder::{Refusal, Region, Shelf};
    ///
    /// let shelf = Shelf::new(1, vec![30, 10, 20])?;
    /// let from = |least| Region::everywhere(1)?.with_face(&[1], least);
    /// let regions = [from(10)?, from(20)?, from(31)?];
    ///
    /// let mut buffer = vec![0; regions.len() * shelf.len()];
    /// let listings = shelf.list_all(&regions, &mut buffer)?;
    /// let inside: Vec<&[u32]> = listings.iter().map(|listing| listing.inside()).collect();
    /// assert_eq!(inside, [&[1, 2, 0][..], &[2, 0], &[]]);
    /// assert!(listings[1].outside().eq([1]));
    ///
    /// // Any regions will do, wherever they are kept.
    /// let two = shelf.list_all([&regions[2], &regions[0]], &mut buffer)?;
    /// assert_eq!(two[0].inside().len() + two[1].inside().len(), 3);
    /// assert_eq!(shelf.list_all(&[], &mut buffer), Err(Refusal::RegionCount));
    /// # Ok::<(), hornherder::Refusal>(())
    /// ```
    ///
    /// Refused are no region at all or more than [`MAX_REGIONS`], a buffer with too few places, faces made for
    /// another dimension, and an order that is not the tree. One region with a fault refuses all, and the
    /// buffer is left alone.
    pub fn list_all<'l, 'r>(
        &self,
        regions: impl IntoIterator<Item = &'r Region>,
        buffer: &'l mut [u32],
    ) -> Result<Vec<Listing<'l>>, Refusal> {
        let joined = Joined::new(self.k, regions);
        let mut counts = [[0; 3]; MAX_REGIONS];
        done(raw::list_regions(
            self.k,
            self.numbers(),
            joined.face_counts.len(),
            &self.points,
            &self.live,
            &self.order,
            &joined.face_counts,
            &joined.normals,
            &joined.offsets,
            &joined.marks,
            buffer,
            counts.as_flattened_mut(),
        ))?;
        let lists: &'l [u32] = buffer;
        let listing = |(region, [inside, _, visits]): (usize, &[u32; 3])| {
            let list = &lists[region * self.len()..][..self.len()];
            let (inside, outside) = list.split_at(*inside as usize);
            Listing::new(inside, outside, *visits)
        };
        let counted = counts[..joined.face_counts.len()].iter().enumerate();
        Ok(counted.map(listing).collect())
    }

    /// Finds the first point inside a region, in shelf order, or says that there is none. It stops as soon
    /// as it has one and needs no buffer.
    ///
    /// ```
    /// use hornherder::{Region, Shelf};
    ///
    /// let shelf = Shelf::new(1, vec![30, 10, 20])?;
    /// for (least, found) in [(10, Some(1)), (20, Some(2)), (31, None)] {
    ///     let region = Region::everywhere(1)?.with_face(&[1], least)?;
    ///     assert_eq!(shelf.screen(&region)?.found(), found);
    /// }
    /// # Ok::<(), hornherder::Refusal>(())
    /// ```
    ///
    /// Refused are faces made for another dimension, and an order that is not the tree, which is checked
    /// first, as in [`list`](Shelf::list).
    pub fn screen(&self, region: &Region) -> Result<Screening, Refusal> {
        let answer = raw::screen(
            self.k,
            self.numbers(),
            region.h(),
            &self.points,
            &self.live,
            &self.order,
            region.normals(),
            region.offsets(),
            region.marks(),
        );
        done(answer.code)?;
        let found = (answer.found == 1).then_some(answer.number);
        Ok(Screening::new(found, answer.visits))
    }

    /// Says why the point of this number is inside a region or outside: settled with a whole branch of the
    /// shelf, or by its own test.
    ///
    /// ```
    /// use hornherder::{Margin, Reason, Region, Shelf};
    ///
    /// let shelf = Shelf::new(1, vec![30, 10, 20])?;
    /// let from_20 = Region::everywhere(1)?.with_face(&[1], 20)?;
    ///
    /// // The root's node is point 2, with 20. The branch before it, from 10 to 20, is cut by the face; the
    /// // one after it, from 20 to 30, is wholly above.
    /// assert_eq!(shelf.explain(&from_20, 0)?, Reason::InsideWithBranch { slot: 2 });
    /// assert_eq!(shelf.explain(&from_20, 2)?, Reason::InsideByItself { slot: 1 });
    /// let margin = Margin { face: 0, amount: -10 };
    /// assert_eq!(shelf.explain(&from_20, 1)?, Reason::OutsideByItself { slot: 0, margin });
    ///
    /// // From 31 on the whole shelf is outside, and each point by its own margin.
    /// let from_31 = Region::everywhere(1)?.with_face(&[1], 31)?;
    /// let why = shelf.explain(&from_31, 0)?;
    /// assert_eq!(why.to_string(), "outside: below face 0 by 1, with the whole branch at slot 1");
    /// # Ok::<(), hornherder::Refusal>(())
    /// ```
    ///
    /// Refused are faces made for another dimension, an order that is not the tree, which is checked first,
    /// as in [`list`](Shelf::list), and a number that no point of the shelf has.
    pub fn explain(&self, region: &Region, number: u32) -> Result<Reason, Refusal> {
        let answer = raw::explain(
            self.k,
            self.numbers(),
            region.h(),
            number,
            &self.points,
            &self.live,
            &self.order,
            region.normals(),
            region.offsets(),
            region.marks(),
        );
        done(answer.code)?;
        Ok(Reason::new(answer))
    }
}

impl PartialEq for Shelf<'_> {
    fn eq(&self, other: &Shelf<'_>) -> bool {
        let same = |number| self.point(number) == other.point(number);
        self.k == other.k
            && self.live == other.live
            && self.order() == other.order()
            && (0..self.numbers() as u32).all(same)
    }
}

impl Eq for Shelf<'_> {}

/// What stands in a place of an order that no number has been written to.
pub(crate) const NO_NUMBER: u32 = u32::MAX;

/// How many points these coordinates make. Where they do not come out even, or k is 0, the library refuses.
fn numbered(k: usize, points: &[i32]) -> usize {
    points.len().checked_div(k).unwrap_or(0)
}
