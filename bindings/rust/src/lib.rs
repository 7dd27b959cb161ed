//! Points of whole numbers on a shelf, arranged as a k-d tree, and which of them are inside a region.
//!
//! The work is done by the archive `libhornherder.a`, whose every call is proved to give exactly the
//! answer that its definitions say. This crate has two layers:
//!
//! - [`Shelf`], [`Region`], [`Listing`], [`Screening`], [`Reason`], [`Placing`] and [`Reading`], which derive
//!   the counts of numbers and of faces and give each refusal as a [`Refusal`];
//! - [`raw`], the calls themselves with every number and slice as given.
//!
//! ```
//! use hornherder::{Margin, Region, Shelf};
//!
//! // Six points of two coordinates each.
//! let shelf = Shelf::new(2, vec![1, 5, 4, 2, 4, 8, 7, 1, 6, 6, 2, 2])?;
//! assert_eq!(shelf.order(), [1, 5, 0, 2, 3, 4]);
//!
//! // The region x + y >= 7 and -x >= -6.
//! let region = Region::everywhere(2)?
//!     .with_face(&[1, 1], 7)?
//!     .with_face(&[-1, 0], -6)?;
//!
//! let mut buffer = vec![0; shelf.len()];
//! let listing = shelf.list(&region, &mut buffer)?;
//! assert_eq!(listing.inside(), [2, 4]);
//! assert!(listing.outside().eq([1, 5, 0, 3]));
//! assert_eq!(listing.visits(), 5);
//!
//! // A morning's regions in one call, which checks the order once: the same and its second face alone.
//! let second = Region::everywhere(2)?.with_face(&[-1, 0], -6)?;
//! let mut buffer = vec![0; 2 * shelf.len()];
//! let listings = shelf.list_all([&region, &second], &mut buffer)?;
//! assert_eq!(listings[0].inside(), [2, 4]);
//! assert_eq!(listings[1].inside(), [1, 5, 0, 2, 4]);
//!
//! // Is any point inside at all? The first in shelf order says so, and the call stops there.
//! assert_eq!(shelf.screen(&region)?.found(), Some(2));
//!
//! // Why is point 1 outside? It is settled with a whole branch of the shelf.
//! let reason = shelf.explain(&region, 1)?;
//! assert_eq!(reason.to_string(), "outside: below face 0 by 1, with the whole branch at slot 0");
//!
//! // By how much is a point outside? Point 5 is below face 0 by 3.
//! let placing = region.place(&[2, 2])?;
//! assert!(!placing.inside());
//! assert_eq!(placing.margin(), Some(Margin { face: 0, amount: -3 }));
//! # Ok::<(), hornherder::Refusal>(())
//! ```
//!
//! Pictures come and go: [`Shelf::take`] gives a point the lowest number that is free, [`Shelf::withdraw`]
//! frees a number, and [`Shelf::arrange`] arranges the points that are left, where their order is not the tree
//! already.
//!
//! A [`Reading`] makes points of the renderer's floats.
//!
//! The first shelf, region or point that is made asks the library for its version; one of another version is
//! refused with [`Refusal::OtherVersion`].
//!
//! What a call costs: a list call checks the order first, which costs what [`Shelf::arrange`] does where the
//! order is the tree already. On 65,535 points with 8 faces that is about seven tenths of the call on x86-64 and
//! four fifths on Arm; on small shelves less. A screen checks the order too, and does no more than a list call:
//! where one of the first slots is inside, it is little more than that check. An explain call goes one way down
//! from the root, so it is little more than that check for every point. Several regions in one call share one
//! check: each costs the walk alone.
//!
//! The library keeps no state, so any number of threads may call at once. A call needs less than
//! [`raw::STACK_BYTES`] of stack.

#![warn(missing_docs)]

mod joined;
mod listing;
mod live;
mod placing;
pub mod raw;
mod reading;
mod reason;
mod refusal;
mod region;
mod screening;
mod shelf;

pub use listing::{Listing, Outside};
pub use placing::{Margin, Placing};
pub use reading::Reading;
pub use reason::Reason;
pub use refusal::Refusal;
pub use region::Region;
pub use screening::Screening;
pub use shelf::Shelf;

/// The example of the README, run with the others.
#[cfg(doctest)]
#[doc = include_str!("../README.md")]
struct Readme;

/// The most coordinates that a point can have; the fewest are 1.
pub const MAX_DIMENSION: usize = 4;
/// The most numbers on a shelf, live ones and free ones.
pub const MAX_POINTS: usize = 65_535;
/// The least coordinate.
pub const MIN_COORDINATE: i32 = -32_768;
/// The greatest coordinate.
pub const MAX_COORDINATE: i32 = 32_767;
/// The most faces of a region.
pub const MAX_FACES: usize = 32;
/// The most regions in one call; the fewest are 1.
pub const MAX_REGIONS: usize = 64;
/// The greatest component of a normal; the least is its negative.
pub const MAX_COMPONENT: i32 = 32_767;
/// The greatest offset of a face; the least is its negative.
pub const MAX_OFFSET: i64 = 8_589_934_592;
/// The greatest margin of a point to a face; the least is its negative.
pub const MAX_MARGIN: i64 = 12_884_770_816;
