//! The list call beside other ways to list.

use crate::clock::{best_of, Contender};
use crate::cpp::{self, CgalPoints, CgalTree};
use crate::library::{self, Listing};
use crate::measured::{Asked, Call, Measured, CHECK};
use crate::region::Region;
use crate::scan::scan;
use crate::stock::Stock;
use crate::walk::walk;

/// A shelf in order, with CGAL's tree of it.
pub struct Shelf<'a> {
    pub stock: &'a Stock,
    pub order: &'a [u32],
    pub tree: CgalTree,
}

impl<'a> Shelf<'a> {
    /// A shelf with the order that the library built.
    pub fn new(stock: &'a Stock, order: &'a [u32]) -> Shelf<'a> {
        let tree = CgalTree::build(&CgalPoints::new(stock));
        Shelf { stock, order, tree }
    }
}

/// The library's answer. It stops where the library refuses, or where any other way to list does not agree.
fn agreed_listing(shelf: &Shelf, region: &Region) -> Listing {
    let (stock, order) = (shelf.stock, shelf.order);
    let mut list = vec![u32::MAX; stock.n];
    let mut other = vec![u32::MAX; stock.n];
    let listing = library::list(stock, order, region, &mut list);
    assert_eq!(listing.code, 0, "the list call");
    let inside = listing.inside as usize;
    assert_eq!(walk(stock, order, region, &mut other), listing);
    assert!(other == list, "the lists of the walk by hand");
    assert_eq!(scan(stock, order, region, &mut other), inside);
    assert!(other == list, "the lists of the scan in Rust");
    assert_eq!(cpp::scan(stock, order, region, &mut other), inside);
    assert!(other == list, "the lists of the scan in C++");
    assert_eq!(cpp::scan_by_number(stock, region, &mut other), inside);
    let set = sorted(&list[..inside]);
    assert!(
        sorted(&other[..inside]) == set,
        "the set inside of the scan by number"
    );
    assert_eq!(shelf.tree.list(region, &mut other), inside);
    assert!(sorted(&other[..inside]) == set, "the set inside of CGAL");
    listing
}

/// The numbers in rising order.
fn sorted(numbers: &[u32]) -> Vec<u32> {
    let mut numbers = numbers.to_vec();
    numbers.sort_unstable();
    numbers
}

/// Measures every way to list one region of one shelf, and the check, which is a part of the list call. The walk by hand follows a check,
/// as the walk does within the list call.
pub fn measure(shelf: &Shelf, region: &Region, rounds: usize) -> Measured {
    let listing = agreed_listing(shelf, region);
    let (stock, order, tree) = (shelf.stock, shelf.order, &shelf.tree);
    let mut lists: [Vec<u32>; 6] = std::array::from_fn(|_| vec![0; stock.n]);
    let [a, b, c, d, e, f] = &mut lists;
    let check = || library::check(stock, order);
    let contenders = vec![
        Contender::new("list", || library::list(stock, order, region, a)),
        Contender::new(CHECK, check),
        Contender::after("walk by hand", check, || walk(stock, order, region, b)),
        Contender::new("scan in Rust", || scan(stock, order, region, c)),
        Contender::new("scan in C++", || cpp::scan(stock, order, region, d)),
        Contender::new("scan by number in C++", || {
            cpp::scan_by_number(stock, region, e)
        }),
        Contender::new("CGAL", || tree.list(region, f)),
    ];
    let asked = Asked {
        kind: region.kind,
        share: region.share,
        h: region.h,
        inside: listing.inside,
        visits: listing.visits,
    };
    Measured {
        call: Call::List,
        points: stock.kind,
        k: stock.k,
        n: stock.n,
        asked: Some(asked),
        times: best_of(rounds, contenders),
    }
}
