//! A shelf of which half is dead, beside the same shelf all live.

use crate::builder;
use crate::builds;
use crate::clock::{best_of, Contender};
use crate::library::{self, Listing};
use crate::measured::{Asked, Call, Measured, CHECK, HALF_CHECK};
use crate::region::{first_slot, slanted, Region};
use crate::scan::scan;
use crate::stock::Stock;
use crate::wrong_orders::arranging;

/// A shelf and its order.
pub struct Ordered {
    stock: Stock,
    order: Vec<u32>,
}

/// The same points, once all live and once half of them dead.
pub struct Shelves {
    full: Ordered,
    half: Ordered,
}

impl Shelves {
    /// Both shelves with the orders that the library arranges. It stops where the library refuses, or where the Rust builder does not agree.
    pub fn new(stock: &Stock, seed: u64) -> Shelves {
        let full = Ordered {
            order: builds::agreed_order(stock),
            stock: stock.clone(),
        };
        let stock = stock.half_dead(seed);
        let wanted = builder::build_live(&stock);
        let order = builds::arranged(&stock);
        assert!(order == wanted, "the Rust builder's order of the live");
        let half = Ordered { stock, order };
        Shelves { full, half }
    }

    /// A workload on both shelves.
    fn measured(
        &self,
        call: Call,
        asked: Option<Asked>,
        times: Vec<(&'static str, f64)>,
    ) -> Measured {
        let Stock { kind, k, n, .. } = self.full.stock;
        Measured {
            call,
            points: kind,
            k,
            n,
            asked,
            times,
        }
    }
}

impl Ordered {
    /// The library's answer for a region. It stops where the library refuses, or where the scan in Rust does not agree.
    fn agreed_listing(&self, region: &Region) -> Listing {
        let mut list = vec![u32::MAX; self.order.len()];
        let mut other = list.clone();
        let listing = library::list(&self.stock, &self.order, region, &mut list);
        assert_eq!(listing.code, 0, "the list call");
        let inside = scan(&self.stock, &self.order, region, &mut other);
        assert_eq!(inside, listing.inside as usize);
        assert!(other == list, "the lists of the scan in Rust");
        listing
    }

    /// A region around the point in the first slot, which a screen finds at once.
    fn first_slot(&self, h: usize, seed: u64) -> Region {
        let region = first_slot(&self.stock, &self.order, h, 0.01, seed);
        let answer = library::screen(&self.stock, &self.order, &region);
        let found = (answer.code, answer.found, answer.number);
        assert_eq!(found, (0, 1, self.order[0]), "the first slot");
        region
    }
}

/// Measures the arrange call on both shelves, from zeros and on the tree.
pub fn measure_arrange(shelves: &Shelves, rounds: usize) -> Measured {
    let Shelves { full, half } = shelves;
    let zeros = || vec![0; full.stock.n];
    #[rustfmt::skip]
    let contenders = vec![
        arranging("arrange", &full.stock, zeros()),
        arranging("arrange, half dead", &half.stock, zeros()),
        Contender::new(CHECK, || library::check(&full.stock, &full.order)),
        Contender::new(HALF_CHECK, || library::check(&half.stock, &half.order)),
    ];
    shelves.measured(Call::HalfArrange, None, best_of(rounds, contenders))
}

/// Measures the list call for one region of so many faces, the screen that finds the first slot, and the check, which is a part of both, each on
/// both shelves.
pub fn measure_list(shelves: &Shelves, h: usize, seed: u64, rounds: usize) -> Measured {
    let Shelves { full, half } = shelves;
    let region = slanted(&full.stock, h, 0.01, seed);
    let (first, half_first) = (full.first_slot(h, seed), half.first_slot(h, seed));
    let [_, listing] = [full, half].map(|shelf| shelf.agreed_listing(&region));
    let mut lists: [Vec<u32>; 2] = std::array::from_fn(|_| vec![0; full.stock.n]);
    let [a, b] = &mut lists;
    #[rustfmt::skip]
    let contenders = vec![
        Contender::new("list", || library::list(&full.stock, &full.order, &region, a)),
        Contender::new("list, half dead", || library::list(&half.stock, &half.order, &region, b)),
        Contender::new("screen", || library::screen(&full.stock, &full.order, &first)),
        Contender::new("screen, half dead", || library::screen(&half.stock, &half.order, &half_first)),
        Contender::new(CHECK, || library::check(&full.stock, &full.order)),
        Contender::new(HALF_CHECK, || library::check(&half.stock, &half.order)),
    ];
    let asked = Asked {
        kind: region.kind,
        share: region.share,
        h,
        inside: listing.inside,
        visits: listing.visits,
    };
    shelves.measured(Call::HalfList, Some(asked), best_of(rounds, contenders))
}
