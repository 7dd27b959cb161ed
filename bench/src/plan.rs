//! Which shelves and regions are measured.

use crate::builds;
use crate::changes;
use crate::colours;
use crate::explains;
use crate::halves;
use crate::hard::{AGAINST_PIVOTS, HARD};
use crate::lists::{self, Shelf};
use crate::measured::{Measured, REGIONS};
use crate::mornings;
use crate::region::{emptied, first_slot, morning, one_plane, slanted, square, Region};
use crate::screens;
use crate::stock::{Kind, Stock, CLUSTERED, ON_A_PLANE, ORDINARY, SPREAD};
use crate::targets::{DIMENSION, FULL, SMALLER};
use crate::wrong_orders;

/// How much is measured.
pub struct Plan {
    pub seed: u64,
    pub rounds: usize,
    pub quick: bool,
}

impl Plan {
    /// The sizes for the plot and the growth, smallest first.
    fn sizes(&self) -> Vec<usize> {
        match self.quick {
            true => vec![1_000, SMALLER, FULL],
            false => vec![1_000, 2_048, 4_096, SMALLER, 16_384, 32_768, FULL],
        }
    }

    /// Every workload: the sizes, orders that are not the tree, several regions in one call, the screens, the explain call, the colours, taking
    /// and withdrawing, shelves of which half is dead, the dimensions, the other kinds, the hard ones.
    pub fn measure(&self) -> Vec<Measured> {
        let mut out = Vec::new();
        for n in self.sizes() {
            let few = n != FULL || self.quick;
            let regions = if few { eight_faces } else { all_regions };
            out.extend(self.shelf(CLUSTERED, DIMENSION, n, regions));
        }
        out.extend([SMALLER, FULL].map(|n| self.wrong_orders(n)));
        out.extend(self.mornings());
        out.extend(self.screens());
        out.push(self.explains());
        out.push(colours::measure(self.seed, 2 * self.rounds));
        out.push(self.changes());
        out.extend(self.halves());
        if self.quick {
            out.extend(self.shelf(AGAINST_PIVOTS, DIMENSION, FULL, no_region));
            return out;
        }
        for k in [1, 2, 4] {
            out.extend(self.shelf(CLUSTERED, k, FULL, some_regions));
            out.extend(self.shelf(SPREAD, k, FULL, eight_faces));
        }
        for kind in &ORDINARY[1..] {
            out.extend(self.shelf(*kind, DIMENSION, FULL, some_regions));
        }
        out.extend(self.shelf(ON_A_PLANE, DIMENSION, FULL, worst_region));
        for kind in HARD {
            out.extend(self.shelf(kind, DIMENSION, FULL, no_region));
        }
        out
    }

    /// Orders that are not the tree, on a shelf of so many points.
    fn wrong_orders(&self, n: usize) -> Measured {
        eprintln!("measuring orders that are not the tree, n {n}");
        let stock = CLUSTERED.stock(DIMENSION, n, self.seed);
        let order = builds::agreed_order(&stock);
        wrong_orders::measure(&stock, &order, self.seed, 2 * self.rounds)
    }

    /// Several regions in one call, on the shelf that the targets speak of: of every number of faces and every share.
    fn mornings(&self) -> Vec<Measured> {
        eprintln!("measuring several regions in one call");
        let stock = CLUSTERED.stock(DIMENSION, FULL, self.seed);
        let order = builds::agreed_order(&stock);
        let shelf = Shelf::new(&stock, &order);
        let each = |(h, share)| {
            let regions = morning(&stock, REGIONS, h, share, self.seed);
            mornings::measure(&shelf, &regions, 2 * self.rounds)
        };
        faces_and_shares().map(each).collect()
    }

    /// The screen, on the shelf that the targets speak of: regions with none inside, and with the first slot inside.
    fn screens(&self) -> Vec<Measured> {
        eprintln!("measuring the screen");
        let stock = CLUSTERED.stock(DIMENSION, FULL, self.seed);
        let order = builds::agreed_order(&stock);
        let shelf = Shelf::new(&stock, &order);
        let regions = if self.quick {
            &SCREENED[..2]
        } else {
            &SCREENED
        };
        let none = regions
            .iter()
            .map(|&(h, share)| emptied(&stock, h, share, self.seed));
        let first = [8, 32].map(|h| first_slot(&stock, &order, h, 0.01, self.seed));
        let regions = none.chain(first);
        regions
            .map(|region| screens::measure(&shelf, &region, 2 * self.rounds))
            .collect()
    }

    /// The explain call, on the shelf that the targets speak of and the region that the plot draws. It has many numbers, so each has fewer rounds.
    fn explains(&self) -> Measured {
        eprintln!("measuring the explain call");
        let stock = CLUSTERED.stock(DIMENSION, FULL, self.seed);
        let order = builds::agreed_order(&stock);
        let region = slanted(&stock, 8, 0.01, self.seed);
        let rounds = (self.rounds / 4).max(1);
        explains::measure(&stock, &order, &region, self.seed, rounds)
    }

    /// Taking and withdrawing, on the shelf that the targets speak of.
    fn changes(&self) -> Measured {
        eprintln!("measuring take and withdraw");
        let stock = CLUSTERED.stock(DIMENSION, FULL, self.seed);
        let order = builds::agreed_order(&stock);
        changes::measure(&stock, &order, 4 * self.rounds)
    }

    /// The shelf that the targets speak of with half of it dead beside all of it live, with regions of few faces and of many.
    fn halves(&self) -> Vec<Measured> {
        eprintln!("measuring shelves of which half is dead");
        let stock = CLUSTERED.stock(DIMENSION, FULL, self.seed);
        let shelves = halves::Shelves::new(&stock, self.seed);
        let faces: &[usize] = if self.quick { &[8] } else { &[8, 32] };
        let list = |&h: &usize| halves::measure_list(&shelves, h, self.seed, 2 * self.rounds);
        let arrange = halves::measure_arrange(&shelves, 2 * self.rounds);
        let lists = faces.iter().map(list);
        [arrange].into_iter().chain(lists).collect()
    }

    /// One shelf: arranging it, then each of its regions.
    fn shelf(&self, kind: Kind, k: usize, n: usize, regions: Regions) -> Vec<Measured> {
        eprintln!("measuring {}, k {k}, n {n}", kind.name);
        let stock = kind.stock(k, n, self.seed);
        let order = builds::agreed_order(&stock);
        let mut out = vec![builds::measure(&stock, &order, self.rounds)];
        let regions = regions(&stock, self.seed);
        if !regions.is_empty() {
            let shelf = Shelf::new(&stock, &order);
            let lists = regions.iter();
            out.extend(lists.map(|region| lists::measure(&shelf, region, 2 * self.rounds)));
        }
        out
    }
}

/// How many faces the screened regions have, and which share of the shelf they hold before they are emptied.
const SCREENED: [(usize, f64); 7] = [
    (8, 0.01),
    (8, 0.05),
    (6, 0.01),
    (6, 0.05),
    (14, 0.05),
    (32, 0.01),
    (32, 0.05),
];

/// The regions that a shelf is asked for.
type Regions = fn(&Stock, u64) -> Vec<Region>;

/// None: the shelf is only arranged.
fn no_region(_: &Stock, _: u64) -> Vec<Region> {
    Vec::new()
}

/// The one that the plot draws.
fn eight_faces(stock: &Stock, seed: u64) -> Vec<Region> {
    vec![slanted(stock, 8, 0.01, seed)]
}

/// Slanted ones of few and of many faces, and a square box.
fn some_regions(stock: &Stock, seed: u64) -> Vec<Region> {
    vec![
        slanted(stock, 8, 0.01, seed),
        slanted(stock, 32, 0.01, seed),
        square(stock, 0.01, seed),
    ]
}

/// Every number of faces with every share.
fn faces_and_shares() -> impl Iterator<Item = (usize, f64)> {
    let shares = |h| [0.001, 0.01, 0.05].map(|share| (h, share));
    [6, 8, 14, 32].into_iter().flat_map(shares)
}

/// Slanted ones of every number of faces and every share, and square boxes; and two with every other face open.
fn all_regions(stock: &Stock, seed: u64) -> Vec<Region> {
    let every = faces_and_shares().map(|(h, share)| slanted(stock, h, share, seed));
    let mut out: Vec<Region> = every.collect();
    out.extend([0.001, 0.01, 0.05].map(|share| square(stock, share, seed)));
    out.extend([8, 32].map(|h| slanted(stock, h, 0.01, seed).half_open()));
    out
}

/// The one that opens nearly every branch of a shelf whose points are all on its faces.
fn worst_region(stock: &Stock, _: u64) -> Vec<Region> {
    vec![one_plane(stock.k)]
}
