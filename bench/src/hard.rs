//! Shelves that are hard for some way of building.

use crate::against_pivots::{against_pivots, against_uncounted};
use crate::against_select::against_select;
use crate::numbers::Numbers;
use crate::stock::{any_coordinate, Kind, LEAST};

/// The kind that is made against the library's own way to choose pivots.
pub const AGAINST_PIVOTS: Kind = Kind {
    name: "against pivots, as few as can be",
    make: |k, n, _| against_pivots(k, n, 0),
};

/// The hard kinds. Each is the worst that was found for some engine, or a classic that has broken others.
pub const HARD: [Kind; 14] = [
    Kind {
        name: "sorted",
        make: |k, n, _| by_number(k, n, |p, n| p * 65_535 / n),
    },
    Kind {
        name: "reversed",
        make: |k, n, _| by_number(k, n, |p, n| 65_535 - p * 65_535 / n),
    },
    Kind {
        name: "organ pipe",
        make: |k, n, _| by_number(k, n, |p, n| p.min(n - p)),
    },
    Kind {
        name: "sawtooth",
        make: |k, n, _| by_number(k, n, |p, _| p % 251 * 257),
    },
    Kind {
        name: "sawtooth in step with samples",
        make: |k, n, _| by_number(k, n, |p, n| p % (n / 9) * 65_535 / (n / 9)),
    },
    Kind {
        name: "two interleaved",
        make: |k, n, _| by_number(k, n, |p, n| if p % 2 == 0 { p / 2 } else { n - p / 2 }),
    },
    Kind {
        name: "all equal",
        make: |k, n, _| vec![7; k * n],
    },
    Kind {
        name: "two values",
        make: |k, n, numbers| (0..k * n).map(|_| numbers.below(2) as i32).collect(),
    },
    Kind {
        name: "one value, few outliers",
        make: few_outliers,
    },
    Kind {
        name: "doubling distances",
        make: doubling,
    },
    AGAINST_PIVOTS,
    Kind {
        name: "against pivots, an eighth",
        make: |k, n, _| against_pivots(k, n, 8),
    },
    Kind {
        name: "against pivots, none counted",
        make: |k, n, _| against_uncounted(k, n),
    },
    Kind {
        name: "against the standard select",
        make: |k, n, _| against_select(k, n),
    },
];

/// Points whose coordinates all follow from the number, by a rule that gives 0 to 65,535.
fn by_number(k: usize, n: usize, rule: fn(usize, usize) -> usize) -> Vec<i32> {
    let lifted = |place: usize| LEAST + rule(place / k, n) as i32;
    (0..k * n).map(lifted).collect()
}

/// One value, but for one coordinate in fifty anywhere.
fn few_outliers(k: usize, n: usize, numbers: &mut Numbers) -> Vec<i32> {
    let coordinate = |numbers: &mut Numbers| match numbers.below(50) {
        0 => any_coordinate(numbers),
        _ => 0,
    };
    (0..k * n).map(|_| coordinate(numbers)).collect()
}

/// As many coordinates at each distance from the least, the distances doubling, so that a cut in the middle of the range takes off few.
fn doubling(k: usize, n: usize, numbers: &mut Numbers) -> Vec<i32> {
    let coordinate = |numbers: &mut Numbers| {
        let distance = 1 << numbers.below(16);
        LEAST + (distance + numbers.below(distance)) as i32
    };
    (0..k * n).map(|_| coordinate(numbers)).collect()
}
