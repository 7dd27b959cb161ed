//! Pictures that come and go: taking points in, withdrawing them, and arranging those that are left.

use crate::raw;
use crate::refusal::{done, same_version, Refusal};
use crate::shelf::{Shelf, NO_NUMBER};
use crate::{MAX_DIMENSION, MAX_POINTS};

impl<'s> Shelf<'s> {
    /// A shelf with no point yet and room for so many, of `k` coordinates each.
    ///
    /// ```
    /// use hornherder::Shelf;
    ///
    /// let mut shelf = Shelf::with_room(2, 100)?;
    /// assert_eq!((shelf.numbers(), shelf.len()), (100, 0));
    /// assert_eq!(shelf.take(&[4, 2])?, 0);
    /// assert_eq!(shelf.take(&[1, 5])?, 1);
    /// shelf.arrange()?;
    /// assert_eq!(shelf.order(), [1, 0]);
    /// # Ok::<(), hornherder::Refusal>(())
    /// ```
    pub fn with_room(k: usize, numbers: usize) -> Result<Shelf<'s>, Refusal> {
        same_version()?;
        // What is too much is refused for one more than the most.
        let (k, n) = (k.min(MAX_DIMENSION + 1), numbers.min(MAX_POINTS + 1));
        let shelf = Shelf::with_order(k, vec![0; k * n], vec![raw::DEAD; n], vec![NO_NUMBER; n]);
        Ok(shelf?.0)
    }

    /// Takes a point in at the lowest number that is free, and answers that number. The order is left alone:
    /// [`arrange`](Shelf::arrange) sees to it, once for any number of changes.
    ///
    /// ```
    /// use hornherder::{Refusal, Region, Shelf};
    ///
    /// let mut shelf = Shelf::new(1, vec![30, 10, 20])?;
    /// shelf.withdraw(2)?;
    /// shelf.withdraw(0)?;
    /// assert_eq!(shelf.take(&[5])?, 0);
    ///
    /// let everywhere = Region::everywhere(1)?;
    /// let mut buffer = vec![0; shelf.numbers()];
    /// assert_eq!(shelf.list(&everywhere, &mut buffer), Err(Refusal::NotTheTree));
    /// shelf.arrange()?;
    /// assert_eq!(shelf.list(&everywhere, &mut buffer)?.inside(), [0, 1]);
    /// # Ok::<(), hornherder::Refusal>(())
    /// ```
    ///
    /// Refused are a point that has not `k` coordinates, a coordinate out of range, and a shelf on which no number
    /// is free.
    pub fn take(&mut self, point: &[i32]) -> Result<u32, Refusal> {
        let n = self.numbers();
        let (points, live) = (self.points.to_mut(), self.live.to_mut());
        let answer = raw::take(self.k, n, points, live, point);
        done(answer.code)?;
        self.count += 1;
        if self.order.len() < self.count {
            self.order.to_mut().resize(n, NO_NUMBER);
        }
        Ok(answer.number)
    }

    /// Withdraws the point of this number, which is free then. The order is left alone.
    ///
    /// ```
    /// use hornherder::{Refusal, Region, Shelf};
    ///
    /// let mut shelf = Shelf::new(1, vec![0, 10])?;
    /// shelf.withdraw(1)?;
    /// assert_eq!((shelf.len(), shelf.point(1)), (1, None));
    ///
    /// // Number 1 stood in the last slot, so the order is the tree of the one point that is left.
    /// let everywhere = Region::everywhere(1)?;
    /// assert_eq!(shelf.screen(&everywhere)?.found(), Some(0));
    /// assert_eq!(shelf.explain(&everywhere, 1), Err(Refusal::NotLive));
    /// assert_eq!(shelf.withdraw(1), Err(Refusal::NotLive));
    /// # Ok::<(), hornherder::Refusal>(())
    /// ```
    ///
    /// Refused is a number that no point of the shelf has.
    pub fn withdraw(&mut self, number: u32) -> Result<(), Refusal> {
        let n = self.numbers();
        done(raw::withdraw(n, number, self.live.to_mut()))?;
        self.count -= 1;
        Ok(())
    }

    /// Arranges the points as they are now, after [`take`](Shelf::take) and [`withdraw`](Shelf::withdraw), unless the
    /// order is their tree already, and says whether it was.
    ///
    /// ```
    /// use hornherder::Shelf;
    ///
    /// let mut shelf = Shelf::new(1, vec![30, 10, 20])?;
    /// assert!(shelf.arrange()?);
    /// shelf.withdraw(1)?;
    /// assert!(!shelf.arrange()?);
    /// assert_eq!(shelf.order(), [2, 0]);
    ///
    /// // Number 0 stands in the last slot, so the order is the tree of the one point that is left.
    /// shelf.withdraw(0)?;
    /// assert!(shelf.arrange()?);
    /// # Ok::<(), hornherder::Refusal>(())
    /// ```
    pub fn arrange(&mut self) -> Result<bool, Refusal> {
        let n = self.numbers();
        let order = self.order.to_mut();
        let answer = raw::arrange(self.k, n, &self.points, &self.live, order);
        done(answer.code)?;
        Ok(answer.already == 1)
    }
}
