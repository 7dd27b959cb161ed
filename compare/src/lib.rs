//! Compares every call of the library with the second program.

pub mod agree;
pub mod bounds;
pub mod calls;
pub mod cases;
pub mod chance;
pub mod changes;
pub mod contents;
pub mod damage;
pub mod faces;
pub mod faults;
pub mod lent;
pub mod live;
pub mod margins;
pub mod readings;
pub mod reasons;
pub mod renamed;
pub mod seen;
pub mod several;
pub mod shelves;
pub mod stock;
