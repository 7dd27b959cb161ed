//! The thin layer: the calls of the library with k, n, h and the slices as given.
//!
//! Nothing is derived and nothing is tested here, not even whether the library is of this [`VERSION`], so
//! every refusal can be met. The numbers that calls return are those of
//! [`Refusal::number`](crate::Refusal::number), and 0 for done. Each call names its refusals in the order of
//! its tests, and returns the first that holds. A refused call changes no lent number, and every other number
//! in its answer is 0.
//!
//! ```
//! use hornherder::raw;
//!
//! let points = [0, 10];
//! let live = [raw::LIVE; 2];
//! let mut order = [7, 7, 7];
//! let answer = raw::arrange(1, 2, &points, &live, &mut order);
//! assert_eq!((answer.code, answer.already), (0, 0));
//! assert_eq!(order, [0, 1, 7]); // places behind the last live number are left alone
//! assert_eq!(raw::arrange(1, 2, &points, &live, &mut order).already, 1);
//! assert_eq!(raw::screen(1, 2, 0, &points, &live, &[1, 0], &[], &[], &[]).code, 9); // no shelf of these points
//!
//! let mut list = [0; 2];
//! let closed = [raw::CLOSED_FACE];
//! let answer = raw::list(1, 2, 1, &points, &live, &order, &[1], &[5], &closed, &mut list);
//! assert_eq!((answer.inside, answer.outside, answer.visits), (1, 1, 2));
//!
//! // Several regions in one call: here one with the same face, and one with none. The list buffer has two
//! // places for each of them, the counts three.
//! let (mut lists, mut counts) = ([0; 4], [0; 6]);
//! let mut list_regions = |regions, face_counts: &[u32]| {
//!     let (lists, counts) = (&mut lists, &mut counts);
//!     #[rustfmt::skip]
//!     let code = raw::list_regions(1, 2, regions, &points, &live, &order, face_counts, &[1], &[5], &closed, lists, counts);
//!     code
//! };
//! assert_eq!(list_regions(1, &[1, 0]), 14); // two face counts for one region
//! assert_eq!(list_regions(2, &[1, 0]), 0);
//! assert_eq!((lists, counts), ([1, 0, 0, 1], [1, 1, 2, 2, 0, 0]));
//!
//! let answer = raw::screen(1, 2, 1, &points, &live, &order, &[1], &[5], &closed);
//! assert_eq!((answer.found, answer.number, answer.visits), (1, 1, 2));
//! let answer = raw::explain(1, 2, 1, 0, &points, &live, &order, &[1], &[5], &closed);
//! assert_eq!((answer.reason, answer.slot), (raw::OUTSIDE_BY_ITSELF, 0));
//! assert_eq!((answer.face, answer.margin), (0, -5));
//! assert_eq!(raw::explain(1, 2, 0, 2, &points, &live, &order, &[], &[], &[]).code, 17); // there is no point 2
//!
//! let answer = raw::place(1, 1, &[5], &[1], &[5], &closed);
//! assert_eq!((answer.inside, answer.measured, answer.face, answer.margin), (1, 1, 0, 0));
//! assert_eq!(raw::place(1, 1, &[5], &[1], &[5], &[raw::OPEN_FACE]).inside, 0);
//! assert_eq!(raw::place(1, 1, &[3], &[1], &[5], &closed).margin, -2);
//! assert_eq!(raw::place(1, 0, &[5], &[], &[], &[]).measured, 0); // there is no face
//! assert_eq!(raw::place(1, 1, &[5], &[1], &[5], &[]).code, 11); // a closed face has a mark too
//!
//! let mut place = [7; 3];
//! let answer = raw::point_from_colour(1.0, -0.5, 0.1, &mut place);
//! assert_eq!((answer.made, place), (1, [256, -128, 25]));
//! assert_eq!(raw::point_from_grey(f32::NAN, &mut place).code, 12);
//! assert_eq!(raw::point_from_nothing(&mut place).made, 0);
//! assert_eq!(place, [256, -128, 25]); // as they were
//!
//! // Number 1 is withdrawn, so of the order the first place alone counts. Then another point gets the number.
//! let (mut points, mut live) = (points, live);
//! assert_eq!(raw::withdraw(2, 1, &mut live), 0);
//! assert_eq!(raw::arrange(1, 2, &points, &live, &mut order).already, 1);
//! assert_eq!(raw::withdraw(2, 1, &mut live), 17); // it is dead
//! let answer = raw::take(1, 2, &mut points, &mut live, &[-5]);
//! assert_eq!((answer.code, answer.number), (0, 1));
//! assert_eq!((points, live), ([0, -5], [1, 1]));
//! assert_eq!(raw::arrange(1, 2, &points, &live, &mut order).already, 0);
//! assert_eq!(order, [1, 0, 7]);
//! assert_eq!(raw::take(1, 2, &mut points, &mut live, &[3]).code, 16); // both are live
//! assert_eq!(raw::version(), raw::VERSION);
//! ```

/// The version of the calls and of the archive: the header's `HORNHERDER_VERSION`.
pub const VERSION: u32 = 10;

/// The stack that is enough for any call, in bytes.
pub const STACK_BYTES: usize = 32_768;

/// The live byte of a number that is free to be taken.
pub const DEAD: u8 = 0;

/// The live byte of a number that has a point.
pub const LIVE: u8 = 1;

/// The mark of a closed face: a point on it is above it.
pub const CLOSED_FACE: u8 = 0;

/// The mark of an open face: a point on it is not above it.
pub const OPEN_FACE: u8 = 1;

/// The reason "inside, settled with a whole branch".
pub const INSIDE_WITH_BRANCH: u8 = 1;

/// The reason "inside by its own test".
pub const INSIDE_BY_ITSELF: u8 = 2;

/// The reason "outside, settled with a whole branch below a face".
pub const OUTSIDE_WITH_BRANCH: u8 = 3;

/// The reason "outside by its own test".
pub const OUTSIDE_BY_ITSELF: u8 = 4;

/// What [`arrange`] answers.
#[must_use]
#[repr(C)]
#[derive(Clone, Copy, Debug, Default, PartialEq, Eq)]
pub struct Arranging {
    /// 0 for done, or the number of the refusal.
    pub code: u32,
    /// 1 where the order was the shelf before, else 0.
    pub already: u32,
}

/// What [`take`] answers.
#[must_use]
#[repr(C)]
#[derive(Clone, Copy, Debug, Default, PartialEq, Eq)]
pub struct Taking {
    /// 0 for done, or the number of the refusal.
    pub code: u32,
    /// The number that the point has now.
    pub number: u32,
}

/// What [`list`] answers.
#[must_use]
#[repr(C)]
#[derive(Clone, Copy, Debug, Default, PartialEq, Eq)]
pub struct Listing {
    /// 0 for done, or the number of the refusal.
    pub code: u32,
    /// How many points are inside.
    pub inside: u32,
    /// How many points are outside.
    pub outside: u32,
    /// How many slots are open.
    pub visits: u32,
}

/// What [`screen`] answers.
#[must_use]
#[repr(C)]
#[derive(Clone, Copy, Debug, Default, PartialEq, Eq)]
pub struct Screening {
    /// 0 for done, or the number of the refusal.
    pub code: u32,
    /// 1 where a point is inside, else 0.
    pub found: u32,
    /// The number of the first point inside, in shelf order; 0 where none is found.
    pub number: u32,
    /// How many slots are open among those up to and including the found one; of all slots where none is
    /// found.
    pub visits: u32,
}

/// What [`explain`] answers.
#[must_use]
#[repr(C)]
#[derive(Clone, Copy, Debug, Default, PartialEq, Eq)]
pub struct Explaining {
    /// 0 for done, or the number of the refusal.
    pub code: u32,
    /// [`INSIDE_WITH_BRANCH`], [`INSIDE_BY_ITSELF`], [`OUTSIDE_WITH_BRANCH`] or [`OUTSIDE_BY_ITSELF`].
    pub reason: u8,
    /// For outside, the lowest-numbered face that the branch's box lies wholly below, or that the point is
    /// below; else 0.
    pub face: u8,
    /// The slot of the branch's node; by its own test, the point's own slot.
    pub slot: u16,
    /// For outside, the point's margin to that face, which is at most 0; else 0.
    pub margin: i64,
}

/// What [`place`] answers.
#[must_use]
#[repr(C)]
#[derive(Clone, Copy, Debug, Default, PartialEq, Eq)]
pub struct Placing {
    /// 0 for done, or the number of the refusal.
    pub code: u32,
    /// 1 where the point is inside, else 0.
    pub inside: u8,
    /// 1 where there are faces, else 0.
    pub measured: u8,
    /// The lowest-numbered face that has the least margin; 0 where there are no faces.
    pub face: u16,
    /// The least margin over all faces: of a face, the sum of products less its offset. 0 where there are no
    /// faces.
    pub margin: i64,
}

/// What [`point_from_colour`], [`point_from_grey`] and [`point_from_nothing`] answer.
#[must_use]
#[repr(C)]
#[derive(Clone, Copy, Debug, Default, PartialEq, Eq)]
pub struct Making {
    /// 0 for done, or the number of the refusal.
    pub code: u32,
    /// 1 where a point was written, 0 where nothing was measured.
    pub made: u32,
}

extern "C" {
    fn hornherder_arrange(
        k: usize,
        n: usize,
        points: *const i32,
        points_len: usize,
        live: *const u8,
        live_len: usize,
        order: *mut u32,
        order_len: usize,
    ) -> Arranging;

    fn hornherder_take(
        k: usize,
        n: usize,
        points: *mut i32,
        points_len: usize,
        live: *mut u8,
        live_len: usize,
        point: *const i32,
        point_len: usize,
    ) -> Taking;

    fn hornherder_withdraw(n: usize, number: u32, live: *mut u8, live_len: usize) -> u32;

    fn hornherder_list(
        k: usize,
        n: usize,
        h: usize,
        points: *const i32,
        points_len: usize,
        live: *const u8,
        live_len: usize,
        order: *const u32,
        order_len: usize,
        normals: *const i32,
        normals_len: usize,
        offsets: *const i64,
        offsets_len: usize,
        marks: *const u8,
        marks_len: usize,
        list: *mut u32,
        list_len: usize,
    ) -> Listing;

    fn hornherder_list_regions(
        k: usize,
        n: usize,
        regions: usize,
        points: *const i32,
        points_len: usize,
        live: *const u8,
        live_len: usize,
        order: *const u32,
        order_len: usize,
        face_counts: *const u32,
        face_counts_len: usize,
        normals: *const i32,
        normals_len: usize,
        offsets: *const i64,
        offsets_len: usize,
        marks: *const u8,
        marks_len: usize,
        lists: *mut u32,
        lists_len: usize,
        counts: *mut u32,
        counts_len: usize,
    ) -> u32;

    fn hornherder_screen(
        k: usize,
        n: usize,
        h: usize,
        points: *const i32,
        points_len: usize,
        live: *const u8,
        live_len: usize,
        order: *const u32,
        order_len: usize,
        normals: *const i32,
        normals_len: usize,
        offsets: *const i64,
        offsets_len: usize,
        marks: *const u8,
        marks_len: usize,
    ) -> Screening;

    fn hornherder_explain(
        k: usize,
        n: usize,
        h: usize,
        number: u32,
        points: *const i32,
        points_len: usize,
        live: *const u8,
        live_len: usize,
        order: *const u32,
        order_len: usize,
        normals: *const i32,
        normals_len: usize,
        offsets: *const i64,
        offsets_len: usize,
        marks: *const u8,
        marks_len: usize,
    ) -> Explaining;

    fn hornherder_place(
        k: usize,
        h: usize,
        point: *const i32,
        point_len: usize,
        normals: *const i32,
        normals_len: usize,
        offsets: *const i64,
        offsets_len: usize,
        marks: *const u8,
        marks_len: usize,
    ) -> Placing;

    fn hornherder_point_from_colour(
        first: f32,
        second: f32,
        third: f32,
        place: *mut i32,
        place_len: usize,
    ) -> Making;

    fn hornherder_point_from_grey(value: f32, place: *mut i32, place_len: usize) -> Making;

    fn hornherder_point_from_nothing(place: *mut i32, place_len: usize) -> Making;

    fn hornherder_version() -> u32;
}

// In every call below the pointers and lengths are those of slices, and a slice that is written is
// borrowed alone. The library asks for nothing more; where a length is 0 it takes any pointer.
// In what they say v is how many live bytes are 1.

/// Makes the first v places of `order` the shelf of the live points, and says whether they already were it;
/// where they were, nothing is written. Refusals: 1, 2, 3, then 15, then 4, 5.
pub fn arrange(k: usize, n: usize, points: &[i32], live: &[u8], order: &mut [u32]) -> Arranging {
    // SAFETY: as said above.
    unsafe {
        hornherder_arrange(
            k,
            n,
            points.as_ptr(),
            points.len(),
            live.as_ptr(),
            live.len(),
            order.as_mut_ptr(),
            order.len(),
        )
    }
}

/// Writes a point at the lowest dead number, sets its live byte and answers the number. The order is not
/// asked for. Refusals: 1, 2, 3, then 15, then 5, then 16; 3 and 5 are asked of the new point too.
pub fn take(k: usize, n: usize, points: &mut [i32], live: &mut [u8], point: &[i32]) -> Taking {
    // SAFETY: as said above.
    unsafe {
        hornherder_take(
            k,
            n,
            points.as_mut_ptr(),
            points.len(),
            live.as_mut_ptr(),
            live.len(),
            point.as_ptr(),
            point.len(),
        )
    }
}

/// Clears the live byte of a number that is live. Points and order are not asked for. Refusals: 2, then 15,
/// then 17.
#[must_use]
pub fn withdraw(n: usize, number: u32, live: &mut [u8]) -> u32 {
    // SAFETY: as said above.
    unsafe { hornherder_withdraw(n, number, live.as_mut_ptr(), live.len()) }
}

/// Writes the numbers inside from the front of `list`, and those outside from place v - 1 backwards, both in
/// shelf order. The order is checked first. Refusals: 1, 2, 3, then 15, then 4 to 8, then 11, then 9.
#[allow(clippy::too_many_arguments)]
pub fn list(
    k: usize,
    n: usize,
    h: usize,
    points: &[i32],
    live: &[u8],
    order: &[u32],
    normals: &[i32],
    offsets: &[i64],
    marks: &[u8],
    list: &mut [u32],
) -> Listing {
    // SAFETY: as said above.
    unsafe {
        hornherder_list(
            k,
            n,
            h,
            points.as_ptr(),
            points.len(),
            live.as_ptr(),
            live.len(),
            order.as_ptr(),
            order.len(),
            normals.as_ptr(),
            normals.len(),
            offsets.as_ptr(),
            offsets.len(),
            marks.as_ptr(),
            marks.len(),
            list.as_mut_ptr(),
            list.len(),
        )
    }
}

/// Lists each of several regions, whose faces stand end to end: region `r` as [`list`] does with its faces
/// alone, from place r times v of `lists` on, and its numbers inside, outside and of visits from place
/// `3 * r` of `counts` on. The order is checked once. Refusals: 1, 2, 3, then 15, then 14, then 4 to 8, then
/// 11, then 9.
#[must_use]
#[allow(clippy::too_many_arguments)]
pub fn list_regions(
    k: usize,
    n: usize,
    regions: usize,
    points: &[i32],
    live: &[u8],
    order: &[u32],
    face_counts: &[u32],
    normals: &[i32],
    offsets: &[i64],
    marks: &[u8],
    lists: &mut [u32],
    counts: &mut [u32],
) -> u32 {
    // SAFETY: as said above.
    unsafe {
        hornherder_list_regions(
            k,
            n,
            regions,
            points.as_ptr(),
            points.len(),
            live.as_ptr(),
            live.len(),
            order.as_ptr(),
            order.len(),
            face_counts.as_ptr(),
            face_counts.len(),
            normals.as_ptr(),
            normals.len(),
            offsets.as_ptr(),
            offsets.len(),
            marks.as_ptr(),
            marks.len(),
            lists.as_mut_ptr(),
            lists.len(),
            counts.as_mut_ptr(),
            counts.len(),
        )
    }
}

/// Gives the first number inside, in shelf order, or says that there is none; it stops as soon as it has
/// one. The order is checked first. Refusals: 1, 2, 3, then 15, then 4 to 8, then 11, then 9.
#[allow(clippy::too_many_arguments)]
pub fn screen(
    k: usize,
    n: usize,
    h: usize,
    points: &[i32],
    live: &[u8],
    order: &[u32],
    normals: &[i32],
    offsets: &[i64],
    marks: &[u8],
) -> Screening {
    // SAFETY: as said above.
    unsafe {
        hornherder_screen(
            k,
            n,
            h,
            points.as_ptr(),
            points.len(),
            live.as_ptr(),
            live.len(),
            order.as_ptr(),
            order.len(),
            normals.as_ptr(),
            normals.len(),
            offsets.as_ptr(),
            offsets.len(),
            marks.as_ptr(),
            marks.len(),
        )
    }
}

/// Says why the point of this number is inside or outside: with a whole branch of the shelf, or by its own
/// test. The order is checked first. Refusals: 1, 2, 3, then 15, then 4 to 8, then 11, then 9, then 17.
#[allow(clippy::too_many_arguments)]
pub fn explain(
    k: usize,
    n: usize,
    h: usize,
    number: u32,
    points: &[i32],
    live: &[u8],
    order: &[u32],
    normals: &[i32],
    offsets: &[i64],
    marks: &[u8],
) -> Explaining {
    // SAFETY: as said above.
    unsafe {
        hornherder_explain(
            k,
            n,
            h,
            number,
            points.as_ptr(),
            points.len(),
            live.as_ptr(),
            live.len(),
            order.as_ptr(),
            order.len(),
            normals.as_ptr(),
            normals.len(),
            offsets.as_ptr(),
            offsets.len(),
            marks.as_ptr(),
            marks.len(),
        )
    }
}

/// Tests one point against a region, and gives its least margin. Refusals: 1, 3, 5 to 8, then 11.
pub fn place(
    k: usize,
    h: usize,
    point: &[i32],
    normals: &[i32],
    offsets: &[i64],
    marks: &[u8],
) -> Placing {
    // SAFETY: as said above.
    unsafe {
        hornherder_place(
            k,
            h,
            point.as_ptr(),
            point.len(),
            normals.as_ptr(),
            normals.len(),
            offsets.as_ptr(),
            offsets.len(),
            marks.as_ptr(),
            marks.len(),
        )
    }
}

/// Writes the point of a colour into the three places: of each value the greatest whole number not above 256
/// times it, in the float environment that a thread starts with. Refusals: 3, then 12.
pub fn point_from_colour(first: f32, second: f32, third: f32, place: &mut [i32]) -> Making {
    // SAFETY: as said above.
    unsafe { hornherder_point_from_colour(first, second, third, place.as_mut_ptr(), place.len()) }
}

/// Writes the point of a grey into the three places: its number, then 0, 0. Refusals: 3, then 12.
pub fn point_from_grey(value: f32, place: &mut [i32]) -> Making {
    // SAFETY: as said above.
    unsafe { hornherder_point_from_grey(value, place.as_mut_ptr(), place.len()) }
}

/// Makes no point, since nothing was measured, and leaves the three places alone. Refusal: 3.
pub fn point_from_nothing(place: &mut [i32]) -> Making {
    // SAFETY: as said above.
    unsafe { hornherder_point_from_nothing(place.as_mut_ptr(), place.len()) }
}

/// The version of the library that is linked: [`VERSION`] where it is the one that this crate is for. With
/// any other answer no other call may be made.
#[must_use]
pub fn version() -> u32 {
    // SAFETY: it takes nothing.
    unsafe { hornherder_version() }
}
