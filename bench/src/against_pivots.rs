//! Shelves made against the library's way to choose the middle of a run. A coordinate is a range of values until the engine looks at it,
//! and each look is answered so that the pass takes off little and leaves much of the ranges for later ones.

use crate::stock::LEAST;

/// Every coordinate starts as one of the 128 greatest values, so that the middle of the range of pivots comes near them only slowly.
const GREATEST_LIFTED: u32 = 65_535;
const START: u32 = 127;

/// Shorter parts have too few numbers to mislead a sample again and again.
const SHORTEST: usize = 100;

/// How the engine is played against.
#[derive(Clone, Copy)]
struct Play {
    /// A pass by a sample takes off one number in so many; with 0, as few as it can.
    taken: usize,
    /// Whether the engine that is played against counts where a part is late, as the library's does.
    counts: bool,
}

/// The points of a shelf on which each of the library's passes by a sample takes off one number in so many; with 0, as few as it can.
pub fn against_pivots(k: usize, n: usize, taken: usize) -> Vec<i32> {
    let counts = true;
    played(k, n, Play { taken, counts })
}

/// The points of a shelf on which the library would make little of each pass if it never counted.
pub fn against_uncounted(k: usize, n: usize) -> Vec<i32> {
    let (taken, counts) = (0, false);
    played(k, n, Play { taken, counts })
}

/// The points that come of a play.
fn played(k: usize, n: usize, play: Play) -> Vec<i32> {
    let axis = || Axis {
        least: vec![GREATEST_LIFTED - START; n],
        greatest: vec![GREATEST_LIFTED; n],
    };
    let mut axes: Vec<Axis> = (0..k).map(|_| axis()).collect();
    let mut order: Vec<u32> = (0..n as u32).collect();
    play_branch(&mut axes, 0, &mut order, play);
    let point = |number: usize| axes.iter().map(move |axis| axis.least[number]);
    let lifted = (0..n).flat_map(point);
    lifted.map(|x| LEAST + x as i32).collect()
}

/// Plays a run, then its two halves on the next dimension. The deeper it is, the narrower ranges are cut in two.
fn play_branch(axes: &mut [Axis], depth: usize, run: &mut [u32], play: Play) {
    if run.len() < 2 {
        return;
    }
    let room = START >> (1 + depth / axes.len()).min(31);
    let axis = depth % axes.len();
    axes[axis].choose(run, room, play);
    let middle = run.len() / 2;
    play_branch(axes, depth + 1, &mut run[..middle], play);
    play_branch(axes, depth + 1, &mut run[middle + 1..], play);
}

/// The coordinates of all numbers on one dimension, lifted above 0: each lies from its least to its greatest.
struct Axis {
    least: Vec<u32>,
    greatest: Vec<u32>,
}

/// The pivots that are left.
struct Range {
    lo: u32,
    top: u32,
}

impl Axis {
    /// The least key that a number may have.
    fn key(&self, number: u32) -> u32 {
        (self.least[number as usize] << 16) + number
    }

    /// Decides a coordinate.
    fn close(&mut self, number: u32, at: u32) {
        self.least[number as usize] = at;
        self.greatest[number as usize] = at;
    }

    /// Whether a number's key is below the pivot, if that is decided.
    fn is_below(&self, number: u32, pivot: u32) -> Option<bool> {
        let greatest = (self.greatest[number as usize] << 16) + number;
        match (greatest < pivot, pivot <= self.key(number)) {
            (true, _) => Some(true),
            (_, true) => Some(false),
            _ => None,
        }
    }

    /// Decides for a number whose key may be either that it is below the pivot, or that it is not.
    fn decide(&mut self, number: u32, pivot: u32, below: bool) {
        let last = (pivot - 1 - number) >> 16;
        match below {
            true => self.greatest[number as usize] = last,
            false => self.least[number as usize] = last + 1,
        }
    }

    /// Decides every number of a part against the pivot so that as many as wanted are below it, if that can be.
    fn answer(&mut self, part: &[u32], pivot: u32, wanted: usize) {
        let decided = |axis: &Axis, &p: &u32| axis.is_below(p, pivot) == Some(true);
        let mut below = part.iter().filter(|p| decided(self, p)).count();
        for &p in part {
            if self.is_below(p, pivot).is_none() {
                self.decide(p, pivot, below < wanted);
                below += usize::from(below < wanted);
            }
        }
    }

    /// Chooses the middle of the run as the engine does, and answers what it asks.
    fn choose(&mut self, run: &mut [u32], room: u32, play: Play) {
        let m = run.len() / 2;
        let (mut a, mut e) = (0, run.len());
        let (mut lo, mut top) = (0, u32::MAX);
        let mut due = e + e / 4;
        for pass in 0.. {
            if e - a <= 8 || m <= a || top <= lo {
                break;
            }
            let late = play.counts && due < e - a;
            let range = Range { lo, top };
            let part = &run[a..e];
            let (pivot, wanted) = match (pass % 2, late) {
                (1, _) => self.middle(part, m - a, range, room),
                (_, true) => (self.counted(part, m - a), m - a),
                _ => self.sampled(part, m - a, range, play.taken),
            };
            self.answer(part, pivot, wanted);
            let r = a + self.partition(&mut run[a..e], pivot);
            if m < r {
                (e, top) = (r, pivot - 1);
            } else {
                (a, lo) = (r, pivot);
            }
            due -= due / 8;
        }
        for i in a..=m {
            self.least_first(&mut run[i..e]);
        }
    }

    /// The middle of the range, and how many are to be below it: all or none while the ranges are broad, then as many as the rank is.
    fn middle(&self, part: &[u32], rank: usize, range: Range, room: u32) -> (u32, usize) {
        let pivot = range.lo + (range.top - range.lo) / 2 + 1;
        let broad = |p: &usize| self.greatest[*p] - self.least[*p];
        let broadest = part.iter().map(|&p| p as usize).max_by_key(broad);
        let number = broadest.expect("a part has numbers");
        let (least, greatest) = (self.least[number], self.greatest[number]);
        if greatest - least <= room {
            return (pivot, rank);
        }
        let more_below = least + greatest < 2 * (pivot >> 16);
        (pivot, if more_below { part.len() } else { 0 })
    }

    /// The number of the part that has the rank, its coordinates decided.
    fn counted(&mut self, part: &[u32], rank: usize) -> u32 {
        self.close_all(part);
        let mut keys: Vec<u32> = part.iter().map(|&p| self.key(p)).collect();
        *keys.select_nth_unstable(rank).1
    }

    /// The pivot of a sample whose numbers are all made as great as they can be, and how many are to be below it.
    fn sampled(&mut self, part: &[u32], rank: usize, range: Range, taken: usize) -> (u32, usize) {
        if part.len() < SHORTEST {
            self.close_all(part);
        }
        let n = part.len();
        let (first, step, count) = if n < 32 {
            (n / 4, n / 4, 3)
        } else {
            (0, n / 9, 9)
        };
        let places = (0..count).map(|i| part[first + i * step]);
        let sample: Vec<u32> = places.collect();
        for &p in &sample {
            self.close(p, self.greatest[p as usize]);
        }
        let keys: Vec<u32> = sample.iter().map(|&p| self.key(p)).collect();
        let mut medians: Vec<u32> = keys.chunks(3).map(median).collect();
        medians.sort_unstable();
        let pivot = match medians.len() {
            1 => medians[0],
            _ if rank < n / 4 => medians[0],
            _ if n - n / 4 < rank => medians[2],
            _ => medians[1],
        };
        let wanted = n - n.checked_div(taken).unwrap_or(0);
        (pivot.clamp(range.lo + 1, range.top), wanted)
    }

    /// Decides every coordinate of a part that is not decided yet.
    fn close_all(&mut self, part: &[u32]) {
        for &p in part {
            let (least, greatest) = (self.least[p as usize], self.greatest[p as usize]);
            self.close(p, least + p % (greatest - least + 1));
        }
    }

    /// Moves the numbers of a part as the engine does, which swaps each one to the end of those below the pivot.
    fn partition(&self, part: &mut [u32], pivot: u32) -> usize {
        let mut end = 0;
        for place in 0..part.len() {
            part.swap(place, end);
            end += usize::from(self.is_below(part[end], pivot) == Some(true));
        }
        end
    }

    /// Brings the least number of a part to its front as the engine does, and decides no more than it must.
    fn least_first(&mut self, part: &mut [u32]) {
        self.close(part[0], self.least[part[0] as usize]);
        for place in 1..part.len() {
            let (least, p) = (self.key(part[0]), part[place]);
            match self.is_below(p, least) {
                Some(false) => {}
                Some(true) => {
                    self.close(p, self.least[p as usize]);
                    part.swap(0, place);
                }
                None => self.decide(p, least, false),
            }
        }
    }
}

/// The median of three keys.
fn median(keys: &[u32]) -> u32 {
    let (x, y, z) = (keys[0], keys[1], keys[2]);
    x.min(y).max(x.max(y).min(z))
}
