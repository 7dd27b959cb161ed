//! The library's calls, made by the thin layer of its Rust crate.

use crate::region::{Joined, Region};
use crate::stock::Stock;
use hornherder::raw;

pub use hornherder::raw::{take, withdraw, Arranging, Explaining, Listing, Making, Screening};

extern "C" {
    fn hornherder_arrange(
        k: usize,
        n: usize,
        points: *const i32,
        points_len: usize,
        live: *const u8,
        live_len: usize,
        order: *mut u32,
        order_len: usize,
    ) -> Arranging;
}

/// Arranges the shelf, and says whether the order already was its tree.
pub fn arrange(stock: &Stock, order: &mut [u32]) -> Arranging {
    raw::arrange(stock.k, stock.n, &stock.points, &stock.live, order)
}

/// The check: arranges an order that must be the tree already, in the very places that other calls read.
pub fn check(stock: &Stock, order: &[u32]) -> Arranging {
    // SAFETY: the pointers and lengths are those of slices, and the call writes no order that is the tree.
    unsafe {
        hornherder_arrange(
            stock.k,
            stock.n,
            stock.points.as_ptr(),
            stock.points.len(),
            stock.live.as_ptr(),
            stock.live.len(),
            order.as_ptr().cast_mut(),
            order.len(),
        )
    }
}

/// Lists the numbers inside and outside the region.
#[rustfmt::skip]
pub fn list(stock: &Stock, order: &[u32], region: &Region, list: &mut [u32]) -> Listing {
    let (normals, offsets, marks) = (&region.normals, &region.offsets, &region.marks);
    raw::list(stock.k, stock.n, region.h, &stock.points, &stock.live, order, normals, offsets, marks, list)
}

/// Lists the numbers inside and outside each of several regions.
#[rustfmt::skip]
pub fn list_regions(stock: &Stock, order: &[u32], joined: &Joined, lists: &mut [u32], counts: &mut [u32]) -> u32 {
    let (face_counts, normals) = (&joined.face_counts, &joined.normals);
    let (offsets, marks) = (&joined.offsets, &joined.marks);
    raw::list_regions(stock.k, stock.n, face_counts.len(), &stock.points, &stock.live, order, face_counts, normals, offsets, marks, lists, counts)
}

/// Finds the first number inside the region.
#[rustfmt::skip]
pub fn screen(stock: &Stock, order: &[u32], region: &Region) -> Screening {
    let (normals, offsets, marks) = (&region.normals, &region.offsets, &region.marks);
    raw::screen(stock.k, stock.n, region.h, &stock.points, &stock.live, order, normals, offsets, marks)
}

/// Says why a number is inside or outside the region.
#[rustfmt::skip]
pub fn explain(stock: &Stock, order: &[u32], region: &Region, number: u32) -> Explaining {
    let (normals, offsets, marks) = (&region.normals, &region.offsets, &region.marks);
    raw::explain(stock.k, stock.n, region.h, number, &stock.points, &stock.live, order, normals, offsets, marks)
}

/// Makes a point of a colour.
pub fn point_from_colour(colour: &[f32; 3], place: &mut [i32]) -> Making {
    raw::point_from_colour(colour[0], colour[1], colour[2], place)
}
