//! The walk by hand, with no proof: live faces, and the sum at the corner of a box that the signs of a face choose.

use crate::library::Listing;
use crate::region::Region;
use crate::stock::Stock;

/// How many coordinates the root box takes at a time.
const WIDTH: usize = 24;

/// A box by its two corner rows.
#[derive(Clone, Copy)]
pub struct Rows {
    low: [i32; 4],
    high: [i32; 4],
}

/// What a box is found to be. Open, it leaves this many faces.
enum Judgement {
    Below,
    Above,
    Open(usize),
}

/// What a walk reads, and how far it has come.
struct Walk<'a> {
    stock: &'a Stock,
    order: &'a [u32],
    region: &'a Region,
    list: &'a mut [u32],
    front: usize,
    back: usize,
    visits: u32,
}

/// Lists the numbers of the order inside and outside the region, without any test of what is lent.
pub fn walk(stock: &Stock, order: &[u32], region: &Region, list: &mut [u32]) -> Listing {
    let mut live = [0; 32];
    for (face, place) in live.iter_mut().enumerate() {
        *place = face as u8;
    }
    let mut walk = Walk {
        stock,
        order,
        region,
        front: 0,
        back: list.len(),
        list,
        visits: 0,
    };
    walk.branch(0, stock.n, 0, root_rows(stock), &live[..region.h]);
    Listing {
        code: 0,
        inside: walk.front as u32,
        outside: (stock.n - walk.front) as u32,
        visits: walk.visits,
    }
}

/// The least and the greatest coordinate of each lane, the coordinates being dealt to the lanes in turn.
struct Lanes {
    least: [i32; WIDTH],
    greatest: [i32; WIDTH],
}

impl Lanes {
    /// Deals a round, or what is left of one.
    fn deal(&mut self, round: &[i32]) {
        for (lane, &x) in round.iter().enumerate() {
            self.least[lane] = self.least[lane].min(x);
            self.greatest[lane] = self.greatest[lane].max(x);
        }
    }
}

/// The least and the greatest coordinate over all points, in each dimension, in one pass as the library makes it: for every k a lane has
/// coordinates of one dimension.
pub fn root_rows(stock: &Stock) -> Rows {
    let mut lanes = Lanes {
        least: [i32::MAX; WIDTH],
        greatest: [i32::MIN; WIDTH],
    };
    let (rounds, rest) = stock.points.as_chunks::<WIDTH>();
    rounds.iter().for_each(|round| lanes.deal(round));
    lanes.deal(rest);
    let mut rows = Rows {
        low: [0; 4],
        high: [0; 4],
    };
    for d in 0..stock.k {
        let of_d = || (d..WIDTH).step_by(stock.k);
        rows.low[d] = of_d().map(|lane| lanes.least[lane]).min().unwrap();
        rows.high[d] = of_d().map(|lane| lanes.greatest[lane]).max().unwrap();
    }
    rows
}

impl Walk<'_> {
    /// Hands a settled branch to a list as one run, and an open one to its node.
    fn branch(&mut self, start: usize, length: usize, s: usize, rows: Rows, live: &[u8]) {
        if length == 0 {
            return;
        }
        let run = &self.order[start..start + length];
        let mut next = [0; 32];
        match self.judge(&rows, live, &mut next) {
            Judgement::Below => {
                self.back -= length;
                let places = &mut self.list[self.back..self.back + length];
                for (place, &number) in places.iter_mut().rev().zip(run) {
                    *place = number;
                }
            }
            Judgement::Above => {
                self.list[self.front..self.front + length].copy_from_slice(run);
                self.front += length;
            }
            Judgement::Open(left) => self.node(start, length, s, rows, &next[..left]),
        }
    }

    /// Counts the visit, walks the left branch, lists the node by its own test, and walks the right branch. A node alone is only listed.
    fn node(&mut self, start: usize, length: usize, s: usize, rows: Rows, live: &[u8]) {
        self.visits += 1;
        let half = length / 2;
        let number = self.order[start + half];
        let point = self.point(number);
        if length == 1 {
            return self.place(number, point, live);
        }
        let next = if s + 1 == self.stock.k { 0 } else { s + 1 };
        let (mut left, mut right) = (rows, rows);
        left.high[s] = point[s];
        right.low[s] = point[s];
        self.branch(start, half, next, left, live);
        self.place(number, point, live);
        self.branch(start + half + 1, length - half - 1, next, right, live);
    }

    /// Lists one number by its point.
    fn place(&mut self, number: u32, point: [i32; 4], live: &[u8]) {
        let mut faces = live.iter();
        if faces.all(|&face| self.is_above(usize::from(face), &point)) {
            self.list[self.front] = number;
            self.front += 1;
        } else {
            self.back -= 1;
            self.list[self.back] = number;
        }
    }

    /// Judges a box against the live faces, up to the first that it is wholly below, and writes those that are left to `next`.
    fn judge(&self, rows: &Rows, live: &[u8], next: &mut [u8; 32]) -> Judgement {
        let mut left = 0;
        for &face in live {
            let f = usize::from(face);
            if !self.corner_is_above(f, &rows.low, &rows.high) {
                if !self.corner_is_above(f, &rows.high, &rows.low) {
                    return Judgement::Below;
                }
                next[left] = face;
                left += 1;
            }
        }
        match left {
            0 => Judgement::Above,
            _ => Judgement::Open(left),
        }
    }

    /// The components of a face.
    fn normal(&self, face: usize) -> &[i32] {
        let k = self.stock.k;
        &self.region.normals[face * k..(face + 1) * k]
    }

    /// Whether the corner that takes the first row where the component is 0 or more, else the second, is above the face; its sum is added up from
    /// the rows. Four turns for every k, as the library has them, let the compiler write the loop out.
    fn corner_is_above(&self, face: usize, first: &[i32; 4], second: &[i32; 4]) -> bool {
        let normal = self.normal(face);
        let mut sum = 0;
        for d in 0..4 {
            if let Some(&component) = normal.get(d) {
                let coordinate = if component >= 0 { first[d] } else { second[d] };
                sum += i64::from(component) * i64::from(coordinate);
            }
        }
        sum >= self.region.least[face]
    }

    /// Whether a point is above the face.
    fn is_above(&self, face: usize, x: &[i32; 4]) -> bool {
        let normal = self.normal(face);
        let mut sum = 0;
        for (d, &coordinate) in x.iter().enumerate() {
            if let Some(&component) = normal.get(d) {
                sum += i64::from(component) * i64::from(coordinate);
            }
        }
        sum >= self.region.least[face]
    }

    /// The coordinates of a number, in a row of four.
    fn point(&self, number: u32) -> [i32; 4] {
        let k = self.stock.k;
        let coordinates = &self.stock.points[number as usize * k..][..k];
        let mut point = [0; 4];
        for (d, place) in point.iter_mut().enumerate() {
            if let Some(&x) = coordinates.get(d) {
                *place = x;
            }
        }
        point
    }
}
