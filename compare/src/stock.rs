//! Points of every kind that makes a difference.

use crate::chance::Chance;

/// The kinds of points.
#[derive(Clone, Copy, Debug, PartialEq, Eq)]
pub enum Stock {
    /// Over the whole range.
    Spread,
    /// In a few narrow heaps.
    Clustered,
    /// Few different coordinates, and some far from the rest.
    Ties,
    /// All points the same.
    Equal,
    /// Only the first coordinate is not 0.
    Grey,
    /// At the ends of the range and beside them.
    Extremes,
    /// In teeth of a ninth of the shelf, which mislead a sample at equal steps.
    Teeth,
}

impl Stock {
    /// Every kind.
    pub const ALL: [Stock; 7] = [
        Stock::Spread,
        Stock::Clustered,
        Stock::Ties,
        Stock::Equal,
        Stock::Grey,
        Stock::Extremes,
        Stock::Teeth,
    ];

    /// `n` points of `k` coordinates, point 0 first.
    pub fn points(self, chance: &mut Chance, k: usize, n: usize) -> Vec<i32> {
        match self {
            Stock::Spread => (0..k * n).map(|_| anywhere(chance)).collect(),
            Stock::Clustered => clustered(chance, k, n),
            Stock::Ties => (0..k * n).map(|_| tied(chance)).collect(),
            Stock::Equal => {
                let point: Vec<i32> = (0..k).map(|_| anywhere(chance)).collect();
                point.repeat(n)
            }
            Stock::Grey => (0..k * n)
                .map(|i| if i % k == 0 { anywhere(chance) } else { 0 })
                .collect(),
            Stock::Extremes => (0..k * n)
                .map(|_| chance.one_of(&[-32_768, -32_767, -1, 0, 1, 32_766, 32_767]))
                .collect(),
            Stock::Teeth => {
                let tooth = (n / 9).max(1);
                let lifted = |i: usize| i / k % tooth * 65_535 / tooth;
                (0..k * n).map(|i| lifted(i) as i32 - 32_768).collect()
            }
        }
    }
}

/// A coordinate of the whole range.
fn anywhere(chance: &mut Chance) -> i32 {
    chance.between(-32_768, 32_767) as i32
}

/// A coordinate from 0 to 3, and once in twenty times anywhere.
fn tied(chance: &mut Chance) -> i32 {
    match chance.below(20) {
        0 => anywhere(chance),
        _ => chance.between(0, 3) as i32,
    }
}

/// Points in at most five heaps, each some hundred coordinates wide.
fn clustered(chance: &mut Chance, k: usize, n: usize) -> Vec<i32> {
    let middles: Vec<i64> = (0..5 * k)
        .map(|_| chance.between(-30_000, 30_000))
        .collect();
    let mut points = Vec::with_capacity(k * n);
    for _ in 0..n {
        let heap = chance.below(5) * k;
        for middle in &middles[heap..heap + k] {
            points.push((middle + chance.between(-150, 150)) as i32);
        }
    }
    points
}
