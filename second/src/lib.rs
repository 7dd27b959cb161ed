//! A plain, slow implementation of the words (docs/WORDS.md), written from
//! their meaning alone, to compare the library with.

pub mod bound;
pub mod calls;
pub mod exact;
pub mod found;
pub mod joined;
pub mod lists;
pub mod live;
pub mod margin;
pub mod order;
pub mod reading;
pub mod reason;
pub mod refusals;
pub mod region;
pub mod scan;
pub mod shelf;
pub mod text;
pub mod tight;
pub mod visits;

pub use bound::{binary_digits, is_square, s};
pub use calls::{
    arrange, explain, list, list_regions, list_tight, open_slots, place, point_from_colour,
    point_from_grey, point_from_nothing, scan, screen, summarise, take, visits_of_face,
    visits_of_region, withdraw, Arranging, Explaining, Listing, Making, Placing, Scanning,
    Screening, Taking,
};
pub use text::shelf_text;
