//! The rows of the table: one ratio each.

use crate::measured::{Asked, Call, Measured, CHECK, HALF_CHECK};

/// One ratio: what the library takes, against what, and what it is to be at most.
pub struct Row {
    pub call: &'static str,
    pub points: &'static str,
    pub k: usize,
    pub n: usize,
    pub asked: Option<Asked>,
    pub micros: f64,
    pub against: String,
    pub other_micros: f64,
    pub at_most: Option<f64>,
}

impl Row {
    /// The ratio: below 1 the library is faster.
    pub fn ratio(&self) -> f64 {
        self.micros / self.other_micros
    }

    /// Whether the target is reached, where there is one.
    pub fn reached(&self) -> Option<bool> {
        self.at_most.map(|at_most| self.ratio() <= at_most)
    }
}

/// What is compared for a shelf alone: a time of the library and another.
const ARRANGE_PAIRS: [(&str, &str); 5] = [
    ("arrange", "nanoflann"),
    ("arrange", "CGAL"),
    ("arrange", "Rust builder"),
    ("arrange", "Rust builder, packed"),
    (CHECK, "arrange"),
];

/// What is compared for orders that are not the tree.
const WRONG_ORDER_PAIRS: [(&str, &str); 6] = [
    ("arrange, one swap at the end", "arrange"),
    ("arrange, a random order", "arrange"),
    ("arrange, an order of yesterday", "arrange"),
    ("arrange, one swap at the end", "on the tree and from zeros"),
    ("arrange, a random order", "on the tree and from zeros"),
    (
        "arrange, an order of yesterday",
        "on the tree and from zeros",
    ),
];

/// What is compared for a region that is listed.
const LIST_PAIRS: [(&str, &str); 8] = [
    ("walk", "walk by hand"),
    ("walk", "scan in Rust"),
    ("walk", "scan in C++"),
    ("walk", "scan by number in C++"),
    ("list", "scan in Rust"),
    ("list", "scan in C++"),
    ("list", "scan by number in C++"),
    ("list", "CGAL"),
];

/// What is compared for several regions that are listed in one call.
const REGIONS_PAIRS: [(&str, &str); 4] = [
    ("regions", "64 list calls"),
    ("a region", "walk alone"),
    ("regions", "CGAL, inside alone"),
    ("regions", "CGAL, both lists"),
];

/// What is compared for a region that is screened.
const SCREEN_PAIRS: [(&str, &str); 5] = [
    ("screen's walk", "walk"),
    ("screen's walk", "root box by hand"),
    ("screen's walk", "CGAL, any point"),
    ("screen", "list"),
    ("screen", "CGAL, any point"),
];

/// What is compared for a region whose numbers are explained.
const EXPLAIN_PAIRS: [(&str, &str); 3] = [
    ("explain's way", "root box by hand"),
    ("explain's way", "walk"),
    ("explain", "list"),
];

/// What is compared for colours that become points.
const COLOUR_PAIRS: [(&str, &str); 1] = [("points from colours", "floor in Rust")];

/// What is compared for points that are taken in and withdrawn.
const CHANGES_PAIRS: [(&str, &str); 4] = [
    ("take", "take by hand"),
    ("take", CHECK),
    ("withdraw", "withdraw by hand"),
    ("withdraw", CHECK),
];

/// What is compared for a shelf of which half is dead.
const HALF_ARRANGE_PAIRS: [(&str, &str); 2] =
    [("arrange, half dead", "arrange"), (HALF_CHECK, CHECK)];

/// What is compared for a region that is listed there.
const HALF_LIST_PAIRS: [(&str, &str); 2] = [
    ("root box, half dead", "root box"),
    ("walk less root box, half dead", "walk less root box"),
];

/// The rows of one workload, with no target yet.
pub fn rows(measured: &Measured) -> Vec<Row> {
    let pairs: &[(&'static str, &'static str)] = match measured.call {
        Call::Arrange => &ARRANGE_PAIRS,
        Call::WrongOrders => &WRONG_ORDER_PAIRS,
        Call::List => &LIST_PAIRS,
        Call::Regions => &REGIONS_PAIRS,
        Call::Screen => &SCREEN_PAIRS,
        Call::Explain => &EXPLAIN_PAIRS,
        Call::Colours => &COLOUR_PAIRS,
        Call::Changes => &CHANGES_PAIRS,
        Call::HalfArrange => &HALF_ARRANGE_PAIRS,
        Call::HalfList => &HALF_LIST_PAIRS,
    };
    let row = |&(call, against): &(&'static str, &'static str)| Row {
        call,
        points: measured.points,
        k: measured.k,
        n: measured.n,
        asked: measured.asked,
        micros: measured.time(call),
        against: against.to_string(),
        other_micros: measured.time(against),
        at_most: None,
    };
    pairs.iter().map(row).collect()
}
