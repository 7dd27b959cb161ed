//! What the renderer measured, and the point of it.

use crate::raw;
use crate::refusal::{done, same_version, Refusal};

/// What the renderer measured of a picture.
///
/// From readings to a shelf of the pictures that were measured:
///
/// ```
/// use hornherder::{Reading, Shelf};
///
/// let readings = [Reading::Colour(0.5, -0.25, 0.1), Reading::Nothing, Reading::Grey(0.75)];
/// let mut points = Vec::new();
/// for reading in readings {
///     points.extend(reading.point()?.into_iter().flatten());
/// }
/// assert_eq!(points, [128, -64, 25, 192, 0, 0]);
/// assert_eq!(Shelf::new(3, points)?.order(), [0, 1]);
/// # Ok::<(), hornherder::Refusal>(())
/// ```
#[derive(Clone, Copy, Debug, PartialEq)]
pub enum Reading {
    /// A colour of three values.
    Colour(f32, f32, f32),
    /// A grey of one value.
    Grey(f32),
    /// Nothing was measured.
    Nothing,
}

impl Reading {
    /// The point of the reading: of each value the greatest whole number not above 256 times it, exactly, in
    /// the float environment that a thread starts with (one that flushes subnormals to zero may make 0 of a
    /// negative value next to 0). A grey gives its number, then 0, 0. None where nothing was measured.
    ///
    /// ```
    /// use hornherder::{Reading, Refusal};
    ///
    /// assert_eq!(Reading::Colour(1.0, -0.0, -1e-45).point(), Ok(Some([256, 0, -1])));
    /// assert_eq!(Reading::Grey(-128.0).point(), Ok(Some([-32_768, 0, 0])));
    /// assert_eq!(Reading::Nothing.point(), Ok(None));
    /// assert_eq!(Reading::Grey(128.0).point(), Err(Refusal::ValueRange));
    /// ```
    ///
    /// Refused are values that are not finite, or not from -128 up to but not including 128.
    pub fn point(&self) -> Result<Option<[i32; 3]>, Refusal> {
        same_version()?;
        let mut place = [0; 3];
        let answer = match *self {
            Reading::Colour(first, second, third) => {
                raw::point_from_colour(first, second, third, &mut place)
            }
            Reading::Grey(value) => raw::point_from_grey(value, &mut place),
            Reading::Nothing => raw::point_from_nothing(&mut place),
        };
        done(answer.code)?;
        Ok((answer.made == 1).then_some(place))
    }
}
