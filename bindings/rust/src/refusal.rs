//! The reasons for which a call is refused.

use crate::raw;
use std::error::Error;
use std::fmt;
use std::sync::OnceLock;

/// Makes the refusals of the library from one table: name, number, when it is given, and the likely cause.
macro_rules! refusals {
    ($($name:ident = $number:literal, $given:literal, $likely:literal;)*) => {
        /// Why a call was refused. Nothing was written; of several reasons the one is given that comes first
        /// in the order of the call's tests, which [`raw`] says for each call.
        ///
        /// ```
        /// use hornherder::{Refusal, Shelf};
        ///
        /// let refusal = Shelf::new(2, vec![1, 2, 3]).unwrap_err();
        /// assert_eq!(refusal, Refusal::PointsLength);
        /// assert_eq!(refusal.number(), 3);
        /// assert_eq!(Refusal::from_number(3), Some(refusal));
        /// ```
        #[derive(Clone, Copy, Debug, PartialEq, Eq, PartialOrd, Ord, Hash)]
        #[non_exhaustive]
        pub enum Refusal {
            $(
                #[doc = concat!(stringify!($number), ": ", $given, ".")]
                $name,
            )*
            /// The library that is linked has this version of the interface, and the crate is for another:
            /// [`raw::VERSION`]. No call was made.
            OtherVersion(u32),
            /// The library returned this number, which the crate does not know.
            Unknown(u32),
        }

        impl Refusal {
            /// Every refusal that the library returns, in rising order of its number.
            pub const ALL: &'static [Refusal] = &[$(Refusal::$name),*];

            /// The number that the library returned; 0 where it is of another version and was not called.
            pub fn number(self) -> u32 {
                match self {
                    $(Refusal::$name => $number,)*
                    Refusal::OtherVersion(_) => 0,
                    Refusal::Unknown(number) => number,
                }
            }
        }

        impl fmt::Display for Refusal {
            fn fmt(&self, out: &mut fmt::Formatter<'_>) -> fmt::Result {
                match self {
                    $(Refusal::$name => write!(out, "refused ({}): {}; likely: {}", $number, $given, $likely),)*
                    Refusal::OtherVersion(version) => write!(
                        out,
                        "the library that is linked has version {version} of the interface, and this crate is for version {}; likely: an archive of another build in HORNHERDER_LIB_DIR",
                        raw::VERSION
                    ),
                    Refusal::Unknown(number) => write!(
                        out,
                        "refused ({number}): a number that this crate does not know"
                    ),
                }
            }
        }
    };
}

refusals! {
    Dimension = 1, "k is not 1 to 4", "points of more than four coordinates (in a text 5 to 9)";
    TooManyPoints = 2, "n is over 65,535", "a stock for several shelves";
    PointsLength = 3, "the points are not k times n long (one point: not k; a place for a point: not 3)", "n counted in coordinates, or a k of another shelf";
    ShortBuffer = 4, "the order or the list buffer is shorter than v, the count of live numbers (several regions: the list buffer than v for each, or the counts than 3 for each)", "a buffer of an older, smaller shelf";
    CoordinateRange = 5, "a coordinate is not -32,768 to 32,767 (dead numbers aside)", "colours on another scale";
    TooManyFaces = 6, "h is over 32", "faces that cut nothing off (in a text 33 to 64 faces)";
    FacesLength = 7, "the normals are not k times h long, or the offsets not h (several regions: h of all together)", "a face too many in one of the two, or faces of another dimension";
    FaceRange = 8, "a component is not -32,767 to 32,767, or an offset not -8,589,934,592 to 8,589,934,592", "a normal scaled too far, or an offset in a component's place";
    NotTheTree = 9, "the first v slots are not the tree of the live points", "points taken or withdrawn, or an order of another shelf: arrange again";
    Marks = 11, "the marks are not h long (several regions: h of all together), or a mark is not 0 or 1", "closed faces left without a mark, or marks never set";
    ValueRange = 12, "a value is not finite, or not from -128 up to but not including 128", "a pixel that was never rendered, or values on a scale of 0 to 255";
    RegionCount = 14, "the region count is not 1 to 64, or the face counts are not as many", "no region at all, or more than one call takes";
    LiveBytes = 15, "the live bytes are not n long, or one is not 0 or 1", "bytes for the live numbers alone, or bytes never set";
    NoneDead = 16, "all n numbers are live", "a stock that has outgrown its n";
    NotLive = 17, "the number is dead, or n or more", "a picture withdrawn before, or numbers counted from 1";
}

impl Refusal {
    /// The refusal with this number; none for 0, which is done, and for numbers that no call returns.
    pub fn from_number(number: u32) -> Option<Refusal> {
        let mut all = Refusal::ALL.iter().copied();
        all.find(|refusal| refusal.number() == number)
    }
}

impl Error for Refusal {}

/// Turns the number that a call returned into a result.
pub(crate) fn done(code: u32) -> Result<(), Refusal> {
    match code {
        0 => Ok(()),
        _ => Err(Refusal::from_number(code).unwrap_or(Refusal::Unknown(code))),
    }
}

/// Refuses a library of another version. It is asked once, before the first shelf, region or point is made.
pub(crate) fn same_version() -> Result<(), Refusal> {
    static VERSION: OnceLock<u32> = OnceLock::new();
    match *VERSION.get_or_init(raw::version) {
        raw::VERSION => Ok(()),
        other => Err(Refusal::OtherVersion(other)),
    }
}
