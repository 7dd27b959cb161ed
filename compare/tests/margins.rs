//! By how much a point is inside or outside: worked out by hand, every small region, and random regions of every kind.

use compare::calls;
use compare::cases;
use compare::chance::Chance;
use compare::faces::{self, mirror};
use compare::lent::{Lent, MOST_OFFSET};
use compare::margins::{self, MOST_MARGIN};
use compare::seen::{Case, Seen};
use compare::shelves;
use compare::stock::Stock;
use hornherder::raw::Placing;
use second::region::{Face, CLOSED, OPEN};

/// A point against a region.
struct Placed {
    margins: Vec<i64>,
    marks: Vec<u8>,
    answer: Placing,
}

/// Every case.
const CASES: [Case<Placed>; 18] = [
    ("no faces", |placed| placed.answer.measured == 0),
    ("32 faces", |placed| placed.margins.len() == 32),
    ("negative", |placed| placed.answer.margin < 0),
    ("zero, inside", |placed| {
        placed.zero_at(CLOSED) && placed.answer.inside == 1
    }),
    ("zero at a closed face, outside", |placed| {
        placed.zero_at(CLOSED) && placed.answer.inside == 0
    }),
    ("zero at an open face", |placed| placed.zero_at(OPEN)),
    ("positive", |placed| placed.answer.margin > 0),
    ("at the first face of several", |placed| {
        placed.margins.len() > 1 && placed.face() == 0
    }),
    ("at a middle face", |placed| {
        placed.face() > 0 && placed.face() + 1 < placed.margins.len()
    }),
    ("at the last face of several", |placed| {
        placed.face() > 0 && placed.face() + 1 == placed.margins.len()
    }),
    ("a negative tie", |placed| {
        placed.tie() && placed.answer.margin < 0
    }),
    ("a tie at zero", |placed| {
        placed.tie() && placed.answer.margin == 0
    }),
    ("a positive tie", |placed| {
        placed.tie() && placed.answer.margin > 0
    }),
    ("a tie, not at the first face", |placed| {
        placed.tie() && placed.face() > 0
    }),
    ("after a face that the point is below", |placed| {
        placed.margins[..placed.face()].iter().any(|m| *m < 0)
    }),
    ("not the margin nearest to zero", |placed| {
        let least = placed.answer.margin.abs();
        placed.margins.iter().any(|margin| margin.abs() < least)
    }),
    ("the least of the range", |placed| {
        placed.answer.margin == -MOST_MARGIN
    }),
    ("the greatest of the range", |placed| {
        placed.answer.margin == MOST_MARGIN
    }),
];

impl Placed {
    /// Compares the one-point test, which must accept.
    fn new(call: &Lent) -> Placed {
        let answer = calls::place(call);
        assert_eq!(answer.code, 0, "{call:?}");
        Placed {
            margins: margins::all(call),
            marks: call.marks.clone(),
            answer,
        }
    }

    /// The face that is named, or 0.
    fn face(&self) -> usize {
        self.answer.face.into()
    }

    /// Whether the least margin is 0, at a face with this mark.
    fn zero_at(&self, mark: u8) -> bool {
        self.answer.margin == 0 && self.marks.get(self.face()) == Some(&mark)
    }

    /// Whether two faces have the least margin.
    fn tie(&self) -> bool {
        let least = |margin: &&i64| **margin == self.answer.margin;
        self.margins.iter().filter(least).count() > 1
    }
}

/// Some points of the kind and the dimension whose turn it is, one of which is to be tested, and no faces.
fn points(chance: &mut Chance, case: usize) -> Lent {
    let (k, stock) = (1 + case % 4, chance.one_of(&Stock::ALL));
    let n = 1 + chance.below(9);
    let points = stock.points(chance, k, n);
    let tested = chance.below(n) as u32;
    Lent::new(chance, k, points).with_point(tested)
}

/// Up to 32 faces, each of any kind, or an earlier one once more with either mark, or its mirror, or one that has the point at the
/// same margin.
fn tied(chance: &mut Chance, call: Lent) -> Lent {
    let h = chance.below(33);
    (0..h).fold(call, |call, _| {
        let fresh = faces::marked(chance, call.k, &call.points);
        let earlier = match call.h {
            0 => fresh.clone(),
            count => call.faces()[chance.below(count)].clone(),
        };
        let margin = faces::margin(&earlier, &call.point);
        let equal = faces::at_margin(chance, &call.points, &call.point, margin);
        let mark = chance.one_of(&[CLOSED, OPEN]);
        let face = match chance.below(4) {
            0 => fresh,
            1 => mirror(&earlier),
            2 => Face { mark, ..earlier },
            _ => equal.unwrap_or(earlier),
        };
        call.with_face(&face)
    })
}

/// Up to 32 faces that have the point at a few small margins, of which all may be positive or none.
fn near(chance: &mut Chance, call: Lent) -> Lent {
    let h = chance.below(33);
    let least = chance.between(-2, 2);
    let most = least + chance.one_of(&[0, 1, 5, 1_000]);
    (0..h).fold(call, |call, _| {
        let margin = chance.between(least, most);
        let face = faces::at_margin(chance, &call.points, &call.point, margin);
        face.map_or(call.clone(), |face| call.with_face(&face))
    })
}

/// Up to 32 faces that have the point of the least coordinates at an end of the range: all at the greatest margin, or any at the
/// least.
fn at_the_ends(chance: &mut Chance) -> Lent {
    let call = Lent::new(chance, 4, vec![-32_768; 4]);
    let signs = chance.one_of(&[&[-1][..], &[1], &[1, -1, -1, -1]]);
    let h = 1 + chance.below(32);
    (0..h).fold(call, |call, _| {
        let sign = chance.one_of(signs);
        call.with_face(&Face {
            normal: vec![sign * 32_767; 4],
            offset: i64::from(sign) * MOST_OFFSET,
            mark: chance.one_of(&[CLOSED, OPEN]),
        })
    })
}

/// Compares the one-point test on random points and regions, and asks that every case comes up.
#[test]
fn random_regions() {
    let mut seen = Seen::of(&CASES);
    cases::make("margins", 20_000, |chance, case| {
        let call = points(chance, case);
        let call = match chance.below(5) {
            0 => at_the_ends(chance),
            1 | 2 => tied(chance, call),
            3 => near(chance, call),
            _ => shelves::marked_region(chance, &call),
        };
        seen.look(&CASES, &Placed::new(&call));
    });
    seen.enough("margins");
}

/// The point 0 of one coordinate against faces that have it at these margins.
fn at(margins: &[i64], marks: &[u8]) -> Placing {
    let call = Lent::new(&mut Chance::new(cases::SEED), 1, vec![0]);
    let offsets = margins.iter().map(|margin| -margin).collect();
    let call = call.with_faces(vec![1; margins.len()], offsets);
    calls::place(&call.with_marks(marks.to_vec()))
}

/// What a test of up to three faces answers, for every row of margins from -1 to 1 and of marks.
#[test]
fn every_small_region() {
    for h in 0..=3 {
        for row in 0..6_usize.pow(h) {
            let digits = (0..h).map(|face| row / 6_usize.pow(face) % 6);
            let pairs = digits.map(|digit| (digit as i64 / 2 - 1, digit as u8 % 2));
            let (margins, marks): (Vec<i64>, Vec<u8>) = pairs.unzip();
            assert_eq!(at(&margins, &marks).code, 0);
        }
    }
}

/// A done answer of faces.
fn measured(inside: u8, face: u16, margin: i64) -> Placing {
    Placing {
        code: 0,
        inside,
        measured: 1,
        face,
        margin,
    }
}

/// The least number counts with its sign and whatever the marks; the lowest-numbered face that has it is named.
#[test]
fn by_hand() {
    assert_eq!(at(&[5, -100, -1], &[0; 3]), measured(0, 1, -100));
    assert_eq!(at(&[-1, 0, -100], &[0; 3]), measured(0, 2, -100));
    assert_eq!(at(&[10, 3, 4], &[1; 3]), measured(1, 1, 3));
    assert_eq!(at(&[4, 2, 2], &[0; 3]), measured(1, 1, 2));
    assert_eq!(at(&[0, 0], &[CLOSED, CLOSED]), measured(1, 0, 0));
    assert_eq!(at(&[0, 0], &[CLOSED, OPEN]), measured(0, 0, 0));
    assert_eq!(at(&[0, 0], &[OPEN, CLOSED]), measured(0, 0, 0));
    let inside = Placing {
        inside: 1,
        ..Placing::default()
    };
    assert_eq!(at(&[], &[]), inside);
}
