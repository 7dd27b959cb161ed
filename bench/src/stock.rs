//! Shelves as a picture agency has them: spread, clustered, grey, and with many ties.

use crate::numbers::Numbers;

/// The least and the greatest coordinate.
pub const LEAST: i32 = -32_768;
pub const GREATEST: i32 = 32_767;

/// The points of a shelf, what kind they are, and which of them are live.
#[derive(Clone)]
pub struct Stock {
    pub kind: &'static str,
    pub k: usize,
    pub n: usize,
    pub points: Vec<i32>,
    pub live: Vec<u8>,
}

impl Stock {
    /// The same shelf with half of its numbers dead, each by the seed.
    pub fn half_dead(&self, seed: u64) -> Stock {
        let mut numbers = Numbers::new(seed ^ self.n as u64);
        let live = (0..self.n).map(|_| numbers.below(2) as u8).collect();
        Stock {
            live,
            ..self.clone()
        }
    }

    /// The live numbers, the lowest first.
    pub fn live_numbers(&self) -> Vec<u32> {
        let all = 0..self.n as u32;
        all.filter(|&number| self.live[number as usize] == 1)
            .collect()
    }
}

/// A kind of shelf: its name and how its points are made.
#[derive(Clone, Copy)]
pub struct Kind {
    pub name: &'static str,
    pub make: fn(usize, usize, &mut Numbers) -> Vec<i32>,
}

impl Kind {
    /// A shelf of this kind, all of it live; the seed, the dimension and the size decide every point.
    pub fn stock(&self, k: usize, n: usize, seed: u64) -> Stock {
        let mut numbers = Numbers::new(seed ^ ((n * 8 + k) as u64));
        let points = (self.make)(k, n, &mut numbers);
        assert_eq!(points.len(), k * n, "{} makes k times n", self.name);
        Stock {
            kind: self.name,
            k,
            n,
            points,
            live: vec![1; n],
        }
    }
}

/// The kind that the targets speak of.
pub const CLUSTERED: Kind = Kind {
    name: "clustered",
    make: clustered,
};

/// The kind with nothing to go by.
pub const SPREAD: Kind = Kind {
    name: "spread",
    make: spread,
};

/// Points of which every branch of three dimensions and more is open for a face through them all.
pub const ON_A_PLANE: Kind = Kind {
    name: "on a plane",
    make: on_a_plane,
};

/// The ordinary kinds.
pub const ORDINARY: [Kind; 5] = [
    CLUSTERED,
    SPREAD,
    Kind {
        name: "grey",
        make: grey,
    },
    Kind {
        name: "ties, 2 % outliers",
        make: |k, n, numbers| ties(k, n, 0.02, numbers),
    },
    Kind {
        name: "ties, 10 % outliers",
        make: |k, n, numbers| ties(k, n, 0.10, numbers),
    },
];

/// A coordinate of the whole range, each as likely as any other.
pub fn any_coordinate(numbers: &mut Numbers) -> i32 {
    LEAST + numbers.below(65_536) as i32
}

/// Coordinates of the whole range, each as likely as any other.
fn spread(k: usize, n: usize, numbers: &mut Numbers) -> Vec<i32> {
    (0..k * n).map(|_| any_coordinate(numbers)).collect()
}

/// A cluster: its middle and its spread in each dimension.
struct Cluster {
    middle: Vec<f64>,
    width: Vec<f64>,
}

impl Cluster {
    /// A cluster anywhere in the range, from narrow to broad.
    fn new(k: usize, numbers: &mut Numbers) -> Cluster {
        let middle = (0..k).map(|_| 60_000.0 * (numbers.unit() - 0.5)).collect();
        let width = (0..k).map(|_| 50.0 + 3_000.0 * numbers.unit() * numbers.unit());
        Cluster {
            middle,
            width: width.collect(),
        }
    }

    /// A point of the cluster.
    fn point(&self, numbers: &mut Numbers) -> Vec<i32> {
        let around = self.middle.iter().zip(&self.width);
        let exact = around.map(|(middle, width)| middle + width * numbers.bell());
        exact
            .map(|x| (x as i32).clamp(LEAST, GREATEST))
            .collect::<Vec<i32>>()
    }
}

/// Forty clusters, the first forty times as full as the last, and three points in a hundred anywhere.
fn clustered(k: usize, n: usize, numbers: &mut Numbers) -> Vec<i32> {
    let clusters: Vec<Cluster> = (0..40).map(|_| Cluster::new(k, numbers)).collect();
    let weights: Vec<usize> = (1..=40).map(|i| 100_000 / i).collect();
    let total = weights.iter().sum();
    let mut points = Vec::with_capacity(k * n);
    for _ in 0..n {
        if numbers.below(100) < 3 {
            points.extend((0..k).map(|_| any_coordinate(numbers)));
            continue;
        }
        let mut left = numbers.below(total);
        let mut which = 0;
        while left >= weights[which] {
            left -= weights[which];
            which += 1;
        }
        points.extend(clusters[which].point(numbers));
    }
    points
}

/// One channel clustered, the others 0.
fn grey(k: usize, n: usize, numbers: &mut Numbers) -> Vec<i32> {
    let channel = clustered(1, n, numbers);
    let mut points = vec![0; k * n];
    for (number, x) in channel.into_iter().enumerate() {
        points[number * k] = x;
    }
    points
}

/// Four values close together in each dimension, but for a share of outliers anywhere.
fn ties(k: usize, n: usize, share: f64, numbers: &mut Numbers) -> Vec<i32> {
    let mut points = Vec::with_capacity(k * n);
    for _ in 0..n {
        let outlier = numbers.unit() < share;
        points.extend((0..k).map(|_| match outlier {
            true => any_coordinate(numbers),
            false => 100 + numbers.below(4) as i32,
        }));
    }
    points
}

/// Points whose coordinates sum to 0.
fn on_a_plane(k: usize, n: usize, numbers: &mut Numbers) -> Vec<i32> {
    let mut points = Vec::with_capacity(k * n);
    for _ in 0..n {
        let free: Vec<i32> = (1..k).map(|_| any_coordinate(numbers) / 4).collect();
        points.push(-free.iter().sum::<i32>());
        points.extend(free);
    }
    points
}
