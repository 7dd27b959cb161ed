//! Several regions in one call: random ones, every limit on both sides, every refusal, and faults two and three at once.

use compare::calls;
use compare::cases;
use compare::chance::Chance;
use compare::damage;
use compare::faces;
use compare::faults::{first, first_in_order, last, two_or_three};
use compare::lent::{shorten, Lent};
use compare::seen::{Case, Seen};
use compare::several::{self, Several};
use compare::shelves;
use compare::stock::Stock;
use second::live::{DEAD, LIVE};
use second::region::{CLOSED, OPEN};

/// The least and the greatest number of regions.
const LEAST: usize = 1;
const MOST: usize = 64;

/// An accepted call, with its counts.
struct Listed {
    call: Several,
    counts: Vec<u32>,
}

impl Listed {
    /// Compares a call, which must be accepted.
    fn new(call: Several) -> Listed {
        let (code, _, counts) = several::list(&call);
        assert_eq!(code, 0, "{call:?}");
        Listed { call, counts }
    }

    /// Whether there are so many regions.
    fn regions(&self, least: usize, most: usize) -> bool {
        (least..=most).contains(&self.call.regions)
    }

    /// The three counts of each region.
    fn threes(&self) -> impl Iterator<Item = &[u32]> {
        self.counts.chunks_exact(3).take(self.call.regions)
    }

    /// Whether a region has such counts of inside, outside and visits.
    fn any(&self, has: fn(u32, u32, u32) -> bool) -> bool {
        self.threes().any(|three| has(three[0], three[1], three[2]))
    }

    /// Whether the face counts have such ones beside each other.
    fn beside(&self, has: fn(&[u32]) -> bool, width: usize) -> bool {
        self.call.face_counts.windows(width).any(has)
    }

    /// Whether there are faces, and every normal is square, or none is.
    fn all_faces(&self, square: bool) -> bool {
        let lent = &self.call.lent;
        let mut normals = lent.normals.chunks(lent.k);
        lent.h > 0 && normals.all(|normal| second::is_square(normal) == square)
    }
}

/// Every case.
const CASES: [Case<Listed>; 25] = [
    ("1 region", |it| it.regions(1, 1)),
    ("2 to 8 regions", |it| it.regions(2, 8)),
    ("9 to 63 regions", |it| it.regions(9, 63)),
    ("64 regions", |it| it.regions(MOST, MOST)),
    ("no points", |it| it.call.lent.n == 0),
    ("no faces at all", |it| it.call.lent.h == 0),
    ("a region with no faces first", |it| {
        it.call.lent.h > 0 && it.call.face_counts[0] == 0
    }),
    ("a region with no faces last", |it| {
        it.call.lent.h > 0 && it.call.face_counts[it.call.regions - 1] == 0
    }),
    ("a region with no faces between two with some", |it| {
        it.beside(|of| of[0] > 0 && of[1] == 0 && of[2] > 0, 3)
    }),
    ("two regions with no faces between two with some", |it| {
        it.beside(|of| of[0] > 0 && of[1] + of[2] == 0 && of[3] > 0, 4)
    }),
    ("a region of 32 faces", |it| {
        it.call.face_counts.contains(&32)
    }),
    ("2,048 faces", |it| it.call.lent.h == 2_048),
    ("square faces alone", |it| it.all_faces(true)),
    ("slanted faces alone", |it| it.all_faces(false)),
    ("a closed and an open face", |it| {
        it.call.lent.marks.contains(&CLOSED) && it.call.lent.marks.contains(&OPEN)
    }),
    ("a region with none inside", |it| {
        it.any(|inside, outside, _| inside == 0 && outside > 0)
    }),
    ("a region with none outside", |it| {
        it.any(|inside, outside, _| inside > 0 && outside == 0)
    }),
    ("a region with some of both", |it| {
        it.any(|inside, outside, _| inside > 0 && outside > 0)
    }),
    ("a region with visits", |it| {
        it.any(|_, _, visits| visits > 0)
    }),
    ("a region with faces and no visit", |it| {
        let pairs = it.call.face_counts.iter().zip(it.threes());
        it.call.lent.n > 0 && pairs.into_iter().any(|(h, three)| *h > 0 && three[2] == 0)
    }),
    ("regions with other counts", |it| {
        it.threes().any(|three| three != &it.counts[..3])
    }),
    ("lists longer than asked", |it| {
        it.call.lists.len() > it.call.regions * it.call.lent.n
    }),
    ("counts longer than asked", |it| {
        it.call.counts.len() > it.call.regions * 3
    }),
    ("an order longer than n", |it| {
        it.call.lent.order.len() > it.call.lent.n
    }),
    ("nothing longer than asked", |it| {
        it.call == it.call.clone().exact()
    }),
];

/// The shelf with a region of so many faces and any marks.
fn region(chance: &mut Chance, shelf: &Lent, h: usize) -> Lent {
    let (normals, offsets) = faces::region(chance, shelf.k, &shelf.points, h);
    let closed = shelf.with_faces(normals, offsets);
    closed.with_marks(faces::marks(chance, h))
}

/// A shelf of any kind of points with so many regions, of few faces or of as many as are allowed.
fn call(chance: &mut Chance, k: usize, regions: usize) -> Several {
    let stock = chance.one_of(&Stock::ALL);
    let size = match regions {
        0..=8 => chance.one_of(&[0, 4, 30, 300, 1_000]),
        _ => chance.one_of(&[0, 4, 30, 90]),
    };
    let n = chance.below(size + 1);
    let points = stock.points(chance, k, n);
    let shelf = calls::shelf(&Lent::new(chance, k, points));
    let sizes = chance.one_of(&[&[0][..], &[0, 1], &[0, 1, 2, 3, 8], &[0, 0, 4, 32], &[32]]);
    let regions: Vec<Lent> = (0..regions)
        .map(|_| {
            let h = chance.one_of(sizes);
            region(chance, &shelf, h)
        })
        .collect();
    Several::new(chance, &shelf, &regions)
}

/// Compares random calls of every number of regions, and asks that every case comes up.
#[test]
fn random_regions() {
    let mut seen = Seen::of(&CASES);
    cases::make("several regions", 5_000, |chance, case| {
        let more = 9 + chance.below(MOST - 9);
        let few = 2 + chance.below(7);
        let regions = chance.one_of(&[LEAST, few, few, few, more, MOST]);
        let call = call(chance, 1 + case % 4, regions);
        let exact = chance.below(4) == 0;
        let call = if exact { call.exact() } else { call };
        seen.look(&CASES, &Listed::new(call));
    });
    seen.enough("several regions");
}

/// Five points with so many regions of so many faces each, and no place behind those that are asked for.
fn right(chance: &mut Chance, k: usize, regions: usize, h: usize) -> Several {
    let points = Stock::Ties.points(chance, k, 5);
    let shelf = calls::shelf(&Lent::new(chance, k, points));
    let regions: Vec<Lent> = (0..regions).map(|_| region(chance, &shelf, h)).collect();
    Several::new(chance, &shelf, &regions).exact()
}

/// Asks what the call answers once this is changed.
fn answers(right: &Several, change: impl FnOnce(&mut Several), code: u32) {
    let mut changed = right.clone();
    change(&mut changed);
    assert_eq!(several::list(&changed).0, code, "{changed:?}");
}

/// 1 and 64 regions pass, 0 and 65 do not, with face counts for each; nor do face counts one fewer or one more.
#[test]
fn region_counts() {
    let mut chance = Chance::new(cases::SEED);
    let numbers = [
        (0, 14),
        (1, 0),
        (2, 0),
        (63, 0),
        (64, 0),
        (65, 14),
        (300, 14),
    ];
    for k in 1..=4 {
        for (regions, code) in numbers {
            let right = right(&mut chance, k, regions, 2);
            answers(&right, |_| (), code);
            answers(&right, |call| call.face_counts.push(0), 14);
            answers(&right, |call| call.regions += 1, 14);
            answers(&right, |call| call.regions = usize::MAX, 14);
            answers(&right, |call| call.regions = 1 << 32 | regions, 14);
            if regions > 0 {
                answers(&right, |call| shorten(&mut call.face_counts), 14);
                answers(&right, |call| call.face_counts.clear(), 14);
                answers(&right, |call| call.regions -= 1, 14);
            }
        }
    }
}

/// 32 faces pass and 33 do not, wherever they stand, with slices of that length; nor do counts that come out right in 32 bits.
#[test]
fn face_counts() {
    let mut chance = Chance::new(cases::SEED);
    for (k, regions) in [(1, 1), (2, 2), (3, 5), (4, 64)] {
        let right = right(&mut chance, k, regions, 32);
        answers(&right, |_| (), 0);
        let place = chance.below(regions);
        answers(&right, |call| more_faces(call, place, 1), 6);
        for count in [33, 64, 1 << 16, 1 << 31, u32::MAX - 31, u32::MAX] {
            answers(&right, |call| call.face_counts[place] = count, 6);
        }
        let one_less = |call: &mut Several| call.face_counts[place] -= 1;
        answers(&right, one_less, 7);
        if regions > 1 {
            let half = |call: &mut Several| {
                call.face_counts[0] = 1 << 31;
                call.face_counts[1] = (1 << 31) + 64;
            };
            answers(&right, half, 6);
        }
    }
}

/// Gives a region so many more faces, closed ones of zeros, at the end of all.
fn more_faces(call: &mut Several, region: usize, more: usize) {
    call.face_counts[region] += more as u32;
    let k = call.lent.k;
    call.lent = call
        .lent
        .with_more_faces(&call.lent.with_faces(vec![0; k * more], vec![0; more]));
}

/// Every slice one shorter, as it should be, and one longer.
#[test]
fn lengths() {
    let mut chance = Chance::new(cases::SEED);
    for (k, regions) in [(1, 1), (2, 3), (3, 17), (4, 64)] {
        let right = right(&mut chance, k, regions, 3);
        let lengths: [Fault; 19] = [
            (0, |_| ()),
            (3, |call| call.lent.points.push(0)),
            (3, |call| shorten(&mut call.lent.points)),
            (15, |call| call.lent.live.push(0)),
            (15, |call| shorten(&mut call.lent.live)),
            (0, |call| call.lent.order.push(77)),
            (4, |call| shorten(&mut call.lent.order)),
            (0, |call| call.lists.push(77)),
            (4, |call| shorten(&mut call.lists)),
            (4, |call| call.lists.clear()),
            (0, |call| call.counts.push(77)),
            (4, |call| shorten(&mut call.counts)),
            (4, |call| call.counts.clear()),
            (7, |call| call.lent.normals.push(0)),
            (7, |call| shorten(&mut call.lent.normals)),
            (7, |call| call.lent.offsets.push(0)),
            (7, |call| shorten(&mut call.lent.offsets)),
            (11, |call| call.lent.marks.push(0)),
            (11, |call| shorten(&mut call.lent.marks)),
        ];
        for (code, change) in lengths {
            answers(&right, change, code);
        }
    }
}

/// Faces moved from one region to another: the same joined slices, and other regions.
#[test]
fn other_ends() {
    let mut chance = Chance::new(cases::SEED);
    for k in 1..=4 {
        let right = right(&mut chance, k, 3, 4);
        for counts in [[12, 0, 0], [0, 12, 0], [0, 0, 12], [1, 2, 9], [5, 5, 2]] {
            answers(&right, |call| call.face_counts = counts.to_vec(), 0);
        }
        answers(&right, |call| call.face_counts = vec![4, 4, 5], 7);
        answers(&right, |call| call.face_counts = vec![4, 4, 3], 7);
    }
}

/// n 65,535 passes and 65,536 does not; no points pass with buffers that have no place.
#[test]
fn points() {
    let mut chance = Chance::new(cases::SEED);
    let points = Stock::Clustered.points(&mut chance, 1, 65_535);
    let shelf = calls::shelf(&Lent::new(&mut chance, 1, points));
    let regions = [0, 1].map(|h| region(&mut chance, &shelf, h));
    let full = Several::new(&mut chance, &shelf, &regions).exact();
    answers(&full, |_| (), 0);
    answers(&full, |call| shorten(&mut call.lists), 4);
    let over = |call: &mut Several| {
        call.lent.n += 1;
        call.lent.points.push(0);
        call.lent.order.push(65_535);
        call.lists.extend([0, 0]);
    };
    answers(&full, over, 2);
    let empty = calls::shelf(&Lent::new(&mut chance, 3, Vec::new()));
    let regions = [0, 5, 32].map(|h| region(&mut chance, &empty, h));
    let none = Several::new(&mut chance, &empty, &regions).exact();
    assert!(none.lists.is_empty() && none.lent.order.is_empty());
    answers(&none, |_| (), 0);
}

/// A fault: the number that it is refused with, 0 where it is none, and how it is made.
type Fault = (u32, fn(&mut Several));

/// The numbers that the call refuses with, in the order of its tests.
const TESTS: [u32; 12] = [1, 2, 3, 15, 14, 4, 5, 6, 7, 8, 11, 9];

/// Every fault.
const FAULTS: [Fault; 56] = [
    (1, |call| call.lent.k = 0),
    (1, |call| call.lent.k = 5),
    (1, |call| call.lent.k = usize::MAX),
    (2, |call| call.lent.n = 65_536),
    (2, |call| call.lent.n = usize::MAX),
    (3, |call| call.lent.points.push(0)),
    (3, |call| shorten(&mut call.lent.points)),
    (3, |call| call.lent.points.clear()),
    (15, |call| call.lent.live.push(LIVE)),
    (15, |call| call.lent.live.push(DEAD)),
    (15, |call| shorten(&mut call.lent.live)),
    (15, |call| call.lent.live.clear()),
    (15, |call| first(&mut call.lent.live, 2)),
    (15, |call| last(&mut call.lent.live, 255)),
    (14, |call| call.regions = 0),
    (14, |call| call.regions = 2),
    (14, |call| call.regions = 4),
    (14, |call| call.regions = 65),
    (14, |call| call.regions = usize::MAX),
    (14, |call| call.face_counts.push(0)),
    (14, |call| shorten(&mut call.face_counts)),
    (14, |call| call.face_counts.clear()),
    (14, |call| {
        call.regions = 65;
        call.face_counts.resize(65, 0)
    }),
    (4, |call| call.lent.order.truncate(2)),
    (4, |call| call.lent.order.clear()),
    (4, |call| shorten(&mut call.lists)),
    (4, |call| call.lists.clear()),
    (4, |call| shorten(&mut call.counts)),
    (4, |call| call.counts.clear()),
    (5, |call| first(&mut call.lent.points, 32_768)),
    (5, |call| last(&mut call.lent.points, -32_769)),
    (5, |call| last(&mut call.lent.points, i32::MAX)),
    (6, |call| first(&mut call.face_counts, 33)),
    (6, |call| last(&mut call.face_counts, u32::MAX)),
    (6, |call| {
        first(&mut call.face_counts, 1 << 31);
        last(&mut call.face_counts, 1 << 31)
    }),
    (7, |call| call.lent.normals.push(0)),
    (7, |call| shorten(&mut call.lent.normals)),
    (7, |call| call.lent.offsets.push(0)),
    (7, |call| shorten(&mut call.lent.offsets)),
    (7, |call| {
        let middle = call.face_counts.get_mut(1);
        middle.into_iter().for_each(|count| *count += 1)
    }),
    (7, |call| {
        let middle = call.face_counts.get_mut(1);
        middle.into_iter().for_each(|count| *count = 0)
    }),
    (8, |call| first(&mut call.lent.normals, -32_768)),
    (8, |call| last(&mut call.lent.normals, 32_768)),
    (8, |call| first(&mut call.lent.offsets, 8_589_934_593)),
    (8, |call| last(&mut call.lent.offsets, -8_589_934_593)),
    (8, |call| last(&mut call.lent.offsets, i64::MIN)),
    (11, |call| call.lent.marks.push(0)),
    (11, |call| shorten(&mut call.lent.marks)),
    (11, |call| call.lent.marks.clear()),
    (11, |call| first(&mut call.lent.marks, 2)),
    (11, |call| last(&mut call.lent.marks, 2)),
    (11, |call| last(&mut call.lent.marks, 255)),
    (9, |call| call.lent.order.reverse()),
    (9, |call| first(&mut call.lent.order, 3)),
    (9, |call| first(&mut call.lent.order, u32::MAX)),
    (9, |call| {
        let number = call.lent.order.get(1).copied().unwrap_or(0);
        first(&mut call.lent.order, number)
    }),
];

/// A right call of three points and three regions, with no place behind those that are asked for: all live, and among two dead numbers.
fn three_regions(chance: &mut Chance, k: usize) -> [Several; 2] {
    let points = (0..3 * k).map(|i| (i * 7 % 5) as i32).collect();
    let shelf = calls::shelf(&Lent::new(chance, k, points));
    let regions = [2, 1, 2].map(|h| region(chance, &shelf, h));
    let all = Several::new(chance, &shelf, &regions).exact();
    let live = vec![LIVE, DEAD, LIVE, DEAD, LIVE];
    let dead = calls::shelf(&shelves::among_dead(chance, &shelf, live));
    let dead = Several::new(chance, &dead, &regions).exact();
    [all, dead]
}

/// How often the call answers each of its numbers.
fn numbers() -> Seen<u32> {
    Seen::new([0].into_iter().chain(TESTS))
}

/// Compares a right call with these faults, and its number with that of the fault that is first in order.
fn refused(right: &Several, faults: &[Fault], seen: &mut Seen<u32>) {
    let mut call = right.clone();
    for (_, make) in faults {
        make(&mut call);
    }
    let code = several::list(&call).0;
    let numbers: Vec<u32> = faults.iter().map(|(number, _)| *number).collect();
    if let Some(number) = first_in_order(&numbers, &TESTS) {
        assert_eq!(code, number, "{call:?}");
    }
    seen.count(code);
}

/// No fault, and each by itself.
#[test]
fn one_fault() {
    let mut seen = numbers();
    cases::make("one fault in several regions", 80, |chance, case| {
        for right in three_regions(chance, 1 + case % 4) {
            refused(&right, &[], &mut seen);
            for fault in FAULTS {
                refused(&right, &[fault], &mut seen);
            }
        }
    });
    seen.enough("one fault in several regions");
}

/// Every two and every three faults at once, in each dimension.
#[test]
fn two_or_three_faults() {
    let mut seen = numbers();
    cases::make("faults in several regions", 12, |chance, case| {
        for right in three_regions(chance, 1 + case % 4) {
            two_or_three(&FAULTS, |some| refused(&right, some, &mut seen));
        }
    });
    seen.enough("faults in several regions");
}

/// An order that is damaged in any way is refused, but where the damage leaves it as it was.
#[test]
fn damaged_orders() {
    let names = ["the shelf", "damaged"];
    let mut seen = Seen::new(names);
    cases::make("damaged orders of several regions", 200, |chance, case| {
        let (k, n, regions) = (1 + case % 4, 2 + chance.below(60), 1 + chance.below(4));
        let points = chance.one_of(&Stock::ALL).points(chance, k, n);
        let shelf = calls::shelf(&Lent::new(chance, k, points));
        let regions: Vec<Lent> = (0..regions).map(|_| region(chance, &shelf, 2)).collect();
        let right = Several::new(chance, &shelf, &regions);
        refused_unless_same(&right, &shelf.order, &mut seen);
        for (_, make) in damage::ALL {
            let mut order = shelf.order[..n].to_vec();
            make(chance, &mut order);
            refused_unless_same(&right, &order, &mut seen);
        }
    });
    seen.enough("damaged orders of several regions");
}

/// Compares the call with another order, which is refused exactly where its first n places are others.
fn refused_unless_same(right: &Several, order: &[u32], seen: &mut Seen<&'static str>) {
    let n = right.lent.n;
    let same = order[..n] == right.lent.order[..n];
    let code = if same { 0 } else { 9 };
    answers(right, |call| call.lent.order = order.to_vec(), code);
    seen.count(if same { "the shelf" } else { "damaged" });
}
