//! The screen call beside the list call, its own least work, and CGAL's search for any point.

use crate::clock::{best_of, Contender};
use crate::library::{self, Screening};
use crate::lists::Shelf;
use crate::measured::{Asked, Call, Measured, CHECK};
use crate::region::Region;
use crate::walk::root_rows;

/// The library's answer, and how many are inside. It stops where the library refuses, or where the list call or CGAL does not agree. CGAL may
/// find any point that is inside.
fn agreed_screening(shelf: &Shelf, region: &Region) -> (Screening, u32) {
    let (stock, order) = (shelf.stock, shelf.order);
    let mut list = vec![u32::MAX; stock.n];
    let listing = library::list(stock, order, region, &mut list);
    let answer = library::screen(stock, order, region);
    assert_eq!((listing.code, answer.code), (0, 0), "list and screen");
    let inside = &list[..listing.inside as usize];
    let found = (answer.found == 1).then_some(answer.number);
    assert_eq!(found, inside.first().copied(), "the first inside");
    assert!(answer.visits <= listing.visits, "the visits");
    match shelf.tree.any(region) {
        None => assert!(inside.is_empty(), "CGAL finds none"),
        Some(number) => assert!(inside.contains(&number), "CGAL's point"),
    }
    (answer, listing.inside)
}

/// Measures the screen and the list call for one region of one shelf, and the check, which is a part of both. The root box by hand, which
/// every screen needs, follows a check, as it does within the call.
pub fn measure(shelf: &Shelf, region: &Region, rounds: usize) -> Measured {
    let (answer, inside) = agreed_screening(shelf, region);
    let (stock, order, tree) = (shelf.stock, shelf.order, &shelf.tree);
    let mut list = vec![0; stock.n];
    let check = || library::check(stock, order);
    let contenders = vec![
        Contender::new("screen", || library::screen(stock, order, region)),
        Contender::new("list", || library::list(stock, order, region, &mut list)),
        Contender::new(CHECK, check),
        Contender::after("root box by hand", check, || root_rows(stock)),
        Contender::new("CGAL, any point", || tree.any(region)),
    ];
    let asked = Asked {
        kind: region.kind,
        share: region.share,
        h: region.h,
        inside,
        visits: answer.visits,
    };
    Measured {
        call: Call::Screen,
        points: stock.kind,
        k: stock.k,
        n: stock.n,
        asked: Some(asked),
        times: best_of(rounds, contenders),
    }
}
