//! Regions around a stock point, as large as the share of the shelf that they are to hold.

use crate::numbers::Numbers;
use crate::stock::Stock;

/// The largest offset either side of 0.
const FURTHEST: f64 = 8_589_934_592.0;

/// The faces of a region, what kind they are, and which share of the shelf they are to hold.
pub struct Region {
    pub kind: &'static str,
    pub share: f64,
    pub h: usize,
    pub normals: Vec<i32>,
    pub offsets: Vec<i64>,
    pub marks: Vec<u8>,
    /// The least sum that is above each face: for the other contenders, who then need no marks.
    pub least: Vec<i64>,
}

impl Region {
    /// A region of closed faces.
    fn closed(kind: &'static str, share: f64, normals: Vec<i32>, offsets: Vec<i64>) -> Region {
        Region {
            kind,
            share,
            h: offsets.len(),
            normals,
            marks: vec![0; offsets.len()],
            least: offsets.clone(),
            offsets,
        }
    }

    /// The same region with every other face open, its offset one less.
    pub fn half_open(mut self) -> Region {
        self.kind = "slanted, half open";
        for face in (1..self.h).step_by(2) {
            self.marks[face] = 1;
            self.offsets[face] -= 1;
        }
        self
    }
}

/// The faces of several regions end to end, and how many each has.
pub struct Joined {
    pub face_counts: Vec<u32>,
    pub normals: Vec<i32>,
    pub offsets: Vec<i64>,
    pub marks: Vec<u8>,
}

impl Joined {
    /// Joins these regions.
    pub fn new(regions: &[Region]) -> Joined {
        let all = regions.iter();
        Joined {
            face_counts: all.clone().map(|region| region.h as u32).collect(),
            normals: all
                .clone()
                .flat_map(|region| &region.normals)
                .copied()
                .collect(),
            offsets: all
                .clone()
                .flat_map(|region| &region.offsets)
                .copied()
                .collect(),
            marks: all.flat_map(|region| &region.marks).copied().collect(),
        }
    }
}

/// The sum of the products of a normal and a point.
fn sum(normal: &[i32], point: &[i32]) -> i64 {
    let products = normal.iter().zip(point);
    products.map(|(&a, &b)| i64::from(a) * i64::from(b)).sum()
}

/// The margin of a point to a face of a region.
pub fn margin(region: &Region, face: usize, point: &[i32]) -> i64 {
    let normal = &region.normals[face * point.len()..][..point.len()];
    sum(normal, point) - region.offsets[face]
}

/// Whether a region holds a point.
fn holds(region: &Region, point: &[i32]) -> bool {
    let mut faces = region.normals.chunks(point.len()).zip(&region.least);
    faces.all(|(normal, &least)| sum(normal, point) >= least)
}

/// The length of a normal.
fn length(normal: &[i32]) -> f64 {
    (sum(normal, normal) as f64).sqrt()
}

/// A region of slanted faces, in pairs of opposite ones, that holds this share of the shelf around one of its points.
pub fn slanted(stock: &Stock, h: usize, share: f64, seed: u64) -> Region {
    let mut numbers = Numbers::new(seed ^ ((h * 8 + stock.k) as u64));
    let normals = slanted_pairs(stock.k, h, &mut numbers);
    let centre = numbers.below(stock.n);
    around(stock, "slanted", centre, normals, share)
}

/// So many regions of slanted faces, each around another stock point and with normals of its own.
pub fn morning(stock: &Stock, regions: usize, h: usize, share: f64, seed: u64) -> Vec<Region> {
    let mut numbers = Numbers::new(seed ^ ((h * 8 + stock.k) as u64));
    let first = numbers.below(stock.n);
    let region = |turn: usize| {
        let normals = slanted_pairs(stock.k, h, &mut numbers);
        let centre = (first + turn * (stock.n / regions)) % stock.n;
        around(stock, "slanted, 64 regions", centre, normals, share)
    };
    (0..regions).map(region).collect()
}

/// A region of slanted faces around the point in the first slot.
pub fn first_slot(stock: &Stock, order: &[u32], h: usize, share: f64, seed: u64) -> Region {
    let mut numbers = Numbers::new(seed ^ ((h * 8 + stock.k) as u64));
    let normals = slanted_pairs(stock.k, h, &mut numbers);
    let centre = order[0] as usize;
    around(stock, "slanted, first slot", centre, normals, share)
}

/// A region of slanted faces whose first pair was moved into the widest gap between the points inside, so that it holds none. The gap is
/// looked for in the middle half of them.
pub fn emptied(stock: &Stock, h: usize, share: f64, seed: u64) -> Region {
    let region = slanted(stock, h, share, seed);
    let k = stock.k;
    let held = stock.points.chunks(k).filter(|point| holds(&region, point));
    let mut sums: Vec<i64> = held.map(|point| sum(&region.normals[..k], point)).collect();
    sums.sort_unstable();
    let middle = &sums[sums.len() / 4..sums.len() - sums.len() / 4];
    let gaps = middle.windows(2);
    let widest = gaps.max_by_key(|gap| gap[1] - gap[0]).expect("two points");
    let mut offsets = region.offsets;
    offsets[0] = widest[0] + 1;
    offsets[1] = 1 - widest[1];
    Region::closed("slanted, emptied", share, region.normals, offsets)
}

/// A box with two faces across each dimension that holds this share of the shelf around one of its points.
pub fn square(stock: &Stock, share: f64, seed: u64) -> Region {
    let k = stock.k;
    let mut normals = vec![0; 2 * k * k];
    for d in 0..k {
        normals[2 * d * k + d] = 1;
        normals[(2 * d + 1) * k + d] = -1;
    }
    let centre = Numbers::new(seed).below(stock.n);
    around(stock, "square", centre, normals, share)
}

/// As many faces as are allowed, all of them the plane of sum 0 but for their scale.
pub fn one_plane(k: usize) -> Region {
    let normals = (0..32).flat_map(|face| vec![face + 1; k]).collect();
    Region::closed("one plane", 1.0, normals, vec![0; 32])
}

/// The normals of so many slanted faces, in pairs of opposite ones.
fn slanted_pairs(k: usize, h: usize, numbers: &mut Numbers) -> Vec<i32> {
    let mut normals: Vec<i32> = Vec::new();
    for _ in 0..h / 2 {
        let normal = furthest_line(k, &normals, numbers);
        normals.extend(&normal);
        normals.extend(normal.iter().map(|component| -component));
    }
    normals
}

/// A slanted line of which no component is small: of some tries the one that is furthest from those before.
fn furthest_line(k: usize, before: &[i32], numbers: &mut Numbers) -> Vec<i32> {
    let mut best = (f64::MAX, Vec::new());
    for _ in 0..60 {
        let line = slanted_line(k, numbers);
        let near = |other: &[i32]| sum(&line, other) as f64 / length(&line) / length(other);
        let nearest = before.chunks(k).map(near).fold(-1.0, f64::max);
        if nearest < best.0 {
            best = (nearest, line);
        }
    }
    best.1
}

/// A line anywhere, of which each component is at least an eighth of the length.
fn slanted_line(k: usize, numbers: &mut Numbers) -> Vec<i32> {
    loop {
        let line: Vec<i32> = (0..k).map(|_| (4_000.0 * numbers.bell()) as i32).collect();
        let eighth = length(&line) / 8.0;
        if line.iter().all(|c| *c != 0 && f64::from(c.abs()) >= eighth) {
            return line;
        }
    }
}

/// The faces with these normals, moved away from the point until they hold this share of the shelf.
fn around(
    stock: &Stock,
    kind: &'static str,
    centre: usize,
    normals: Vec<i32>,
    share: f64,
) -> Region {
    let k = stock.k;
    let centre = &stock.points[centre * k..(centre + 1) * k];
    let lengths: Vec<f64> = normals.chunks(k).map(length).collect();
    let beyond = |point: &[i32]| {
        let faces = normals.chunks(k).zip(&lengths);
        let distance =
            |(normal, length)| (sum(normal, centre) - sum(normal, point)) as f64 / length;
        faces.map(distance).fold(0.0, f64::max)
    };
    let mut distances: Vec<f64> = stock.points.chunks(k).map(beyond).collect();
    let last = ((share * stock.n as f64) as usize).min(stock.n - 1);
    let (_, reach, _) = distances.select_nth_unstable_by(last, f64::total_cmp);
    let reach = *reach;
    let faces = normals.chunks(k).zip(&lengths);
    let offset = |(normal, length): (&[i32], &f64)| sum(normal, centre) as f64 - reach * length;
    let offsets = faces.map(|face| offset(face).floor().clamp(-FURTHEST, FURTHEST) as i64);
    let offsets = offsets.collect();
    Region::closed(kind, share, normals, offsets)
}
