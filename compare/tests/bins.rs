//! Two bins beside each other: a region with one more face, and the same region with that face's mirror. Every point of the region is
//! in exactly one of them.

use compare::calls;
use compare::cases;
use compare::chance::Chance;
use compare::faces::{self, lies_on, mirror};
use compare::lent::{shorten, Lent, MOST_OFFSET};
use compare::seen::{Case, Seen};
use compare::shelves;
use compare::stock::Stock;
use second::region::{Face, CLOSED};
use std::collections::BTreeSet;

/// How many shelves there are, as many of each kind of points.
const SHELVES: usize = 300 * Stock::ALL.len();

/// A region and its two bins.
struct Bins {
    region: Lent,
    face: Face,
    both: [Lent; 2],
}

/// The numbers inside a region and inside each of its bins.
struct Inside {
    region: BTreeSet<u32>,
    both: [BTreeSet<u32>; 2],
    /// The bin that has a closed face, 0 or 1.
    closed: usize,
    /// Those inside the region that lie on the face between the bins.
    between: BTreeSet<u32>,
}

/// Every case.
const CASES: [Case<Inside>; 7] = [
    ("a point between, in the first bin", |inside| {
        !inside.between.is_empty() && inside.closed == 0
    }),
    ("a point between, in the second bin", |inside| {
        !inside.between.is_empty() && inside.closed == 1
    }),
    ("no point between", |inside| inside.between.is_empty()),
    ("some in both", |inside| {
        inside.both.iter().all(|bin| !bin.is_empty())
    }),
    ("all in the first", |inside| {
        !inside.region.is_empty() && inside.both[1].is_empty()
    }),
    ("all in the second", |inside| {
        !inside.region.is_empty() && inside.both[0].is_empty()
    }),
    ("none in the region", |inside| inside.region.is_empty()),
];

impl Bins {
    /// The bins of a region on both sides of a face.
    fn new(region: &Lent, face: Face) -> Bins {
        Bins {
            region: region.clone(),
            both: [region.with_face(&face), region.with_face(&mirror(&face))],
            face,
        }
    }

    /// Lists the region and the bins, which must all be accepted: the counts add up, no number is in both bins, and together they
    /// have the region's numbers.
    fn inside(&self) -> Inside {
        let region = inside(&self.region);
        let both = [inside(&self.both[0]), inside(&self.both[1])];
        let count = both[0].len() + both[1].len();
        assert_eq!(count, region.len(), "counts of {:?}", self.both[0]);
        assert!(both[0].is_disjoint(&both[1]), "shared: {:?}", self.both[0]);
        assert_eq!(&both[0] | &both[1], region, "{:?}", self.both[0]);
        let on = |number: &u32| lies_on(&self.face, self.region.point_of(*number));
        let between: BTreeSet<u32> = region.iter().copied().filter(on).collect();
        let closed = usize::from(self.face.mark != CLOSED);
        assert!(between.is_subset(&both[closed]), "{:?}", self.both[0]);
        Inside {
            region,
            both,
            closed,
            between,
        }
    }

    /// Asks of the screen that the region's first number is the first of one of the bins, and in the lower slot of the two.
    fn screened(&self) {
        let slot = |call: &Lent| {
            let answer = calls::screen(call);
            let mut slots = call.order[..call.n].iter();
            let holds = slots.position(|number| *number == answer.number);
            holds.filter(|_| answer.found == 1)
        };
        let [first, second] = [slot(&self.both[0]), slot(&self.both[1])];
        let lower = first.into_iter().chain(second).min();
        assert_eq!(slot(&self.region), lower, "{:?}", self.both[0]);
    }

    /// Asks of the one-point test that a point of the shelf is in as many of the bins as it is in the region, which is one or none.
    fn placed(&self, number: u32) {
        let place = |call: &Lent| calls::place(&call.with_point(number)).inside;
        let both = place(&self.both[0]) + place(&self.both[1]);
        assert_eq!(both, place(&self.region), "{number} of {:?}", self.both[0]);
    }
}

/// The numbers inside an accepted call.
fn inside(call: &Lent) -> BTreeSet<u32> {
    let (answer, list) = calls::list(call);
    assert_eq!(answer.code, 0, "{call:?}");
    list.into_iter().take(answer.inside as usize).collect()
}

/// A region on this shelf with any marks, and room for one more face.
fn region(chance: &mut Chance, shelf: &Lent) -> Lent {
    let mut region = shelves::marked_region(chance, shelf);
    region.h = region.h.min(31);
    region.normals.truncate(region.k * region.h);
    region.offsets.truncate(region.h);
    region.marks.truncate(region.h);
    region
}

/// Compares every call on two bins of a region on random shelves, and asks that every case comes up.
#[test]
fn random_shelves() {
    let mut seen = Seen::of(&CASES);
    cases::make("bins", SHELVES, |chance, case| {
        let shelf = shelves::in_turn(chance, case);
        for _ in 0..2 {
            let region = region(chance, &shelf);
            let face = faces::marked(chance, shelf.k, &shelf.points);
            let bins = Bins::new(&region, face);
            let inside = bins.inside();
            bins.screened();
            let some = inside.between.iter().chain(&region.order[..region.n]);
            some.take(2).for_each(|number| bins.placed(*number));
            seen.look(&CASES, &inside);
        }
    });
    seen.enough("bins");
}

/// A fault: the numbers that the region and its bins are refused with, and how it is made in the region or in the face between.
type Fault = (u32, u32, fn(&mut Lent, &mut Face));

/// Every fault of a region of five points and two faces, and none.
const FAULTS: [Fault; 15] = [
    (0, 0, |_, _| {}),
    (0, 6, |region, _| most_faces(region)),
    (0, 8, |_, face| face.normal[0] = -32_768),
    (0, 8, |_, face| face.offset = MOST_OFFSET + 1),
    (1, 1, |region, _| region.k = 5),
    (2, 2, |region, _| region.n = 65_536),
    (3, 3, |region, _| region.points.push(0)),
    (4, 4, |region, _| region.order.truncate(4)),
    (5, 5, |region, _| region.points[0] = 32_768),
    (6, 6, |region, _| region.h = 33),
    (7, 7, |region, _| shorten(&mut region.offsets)),
    (8, 8, |region, _| region.normals[0] = -32_768),
    (11, 11, |region, _| region.marks[1] = 2),
    (11, 11, |region, _| shorten(&mut region.marks)),
    (9, 9, |region, _| region.order[0] = region.order[1]),
];

/// Repeats the faces of a region of two, so that there is no room for another.
fn most_faces(region: &mut Lent) {
    region.h = 32;
    region.normals = region.normals.repeat(16);
    region.offsets = region.offsets.repeat(16);
    region.marks = region.marks.repeat(16);
}

/// The bins of a wrong region are refused as it is, and two bins beside a wrong face alike.
#[test]
fn refused_alike() {
    let mut seen = Seen::new(FAULTS.map(|(region, bins, _)| (region, bins)));
    cases::make("refused bins", 60, |chance, case| {
        let k = 1 + case % 4;
        let points = Stock::Spread.points(chance, k, 5);
        let shelf = calls::shelf(&Lent::new(chance, k, points));
        let (normals, offsets) = faces::region(chance, k, &shelf.points, 2);
        let right = shelf.with_faces(normals, offsets);
        let right = right.with_marks(faces::marks(chance, 2));
        for (region_code, bin_code, make) in FAULTS {
            let mut region = right.clone();
            let mut face = faces::marked(chance, k, &shelf.points);
            make(&mut region, &mut face);
            let bins = Bins::new(&region, face);
            let codes = |call: &Lent| (calls::list(call).0.code, calls::screen(call).code);
            assert_eq!(codes(&bins.region), (region_code, region_code));
            for bin in &bins.both {
                assert_eq!(codes(bin), (bin_code, bin_code));
            }
            let place = |bin: &Lent| calls::place(bin).code;
            assert_eq!(place(&bins.both[0]), place(&bins.both[1]));
            seen.count((region_code, bin_code));
        }
    });
    seen.enough("refused bins, region and bins");
}
