//! Why a point is inside or outside: shelf A worked out by hand, all numbers of small shelves, and random shelves with points and regions of
//! every kind.

use compare::calls;
use compare::cases;
use compare::chance::Chance;
use compare::faces;
use compare::lent::Lent;
use compare::margins;
use compare::reasons;
use compare::seen::{Case, Seen};
use compare::shelves;
use compare::stock::Stock;
use hornherder::raw::{
    Explaining, INSIDE_BY_ITSELF, INSIDE_WITH_BRANCH, OUTSIDE_BY_ITSELF, OUTSIDE_WITH_BRANCH,
};
use second::region::{CLOSED, OPEN};

/// How many shelves there are, as many of each kind of points.
const SHELVES: usize = 400 * Stock::ALL.len();

/// A number of a shelf against a region.
struct Explained {
    call: Lent,
    answer: Explaining,
    /// The slot of the number.
    own: usize,
    /// Its margin to each face.
    margins: Vec<i64>,
}

/// Every case.
const CASES: [Case<Explained>; 25] = [
    ("1", |it| it.is(INSIDE_WITH_BRANCH)),
    ("1 at the root", |it| {
        it.is(INSIDE_WITH_BRANCH) && it.at_root() && it.call.h > 0
    }),
    ("1 below the root", |it| {
        it.is(INSIDE_WITH_BRANCH) && !it.at_root()
    }),
    ("1 at its own slot", |it| {
        it.is(INSIDE_WITH_BRANCH) && it.at_own()
    }),
    ("1 with no faces", |it| {
        it.is(INSIDE_WITH_BRANCH) && it.call.h == 0
    }),
    ("1 on a closed face", |it| {
        it.is(INSIDE_WITH_BRANCH) && it.margins.contains(&0)
    }),
    ("2", |it| it.is(INSIDE_BY_ITSELF)),
    ("2 at the root", |it| {
        it.is(INSIDE_BY_ITSELF) && it.at_root()
    }),
    ("2 on a closed face", |it| {
        it.is(INSIDE_BY_ITSELF) && it.margins.contains(&0)
    }),
    ("3", |it| it.is(OUTSIDE_WITH_BRANCH)),
    ("3 at the root", |it| {
        it.is(OUTSIDE_WITH_BRANCH) && it.at_root()
    }),
    ("3 below the root", |it| {
        it.is(OUTSIDE_WITH_BRANCH) && !it.at_root()
    }),
    ("3 at its own slot, below the root", |it| {
        it.is(OUTSIDE_WITH_BRANCH) && it.at_own() && !it.at_root()
    }),
    ("3 on an open face", |it| {
        it.is(OUTSIDE_WITH_BRANCH) && it.answer.margin == 0
    }),
    ("3 at a face after one that the point is below", |it| {
        it.is(OUTSIDE_WITH_BRANCH) && it.face() != reasons::face_of_point(&it.call)
    }),
    ("3 at a face after one of its own slot's branch", |it| {
        it.is(OUTSIDE_WITH_BRANCH) && it.face() != reasons::face_of_box(&it.call, it.own)
    }),
    ("3 at a face without the least margin", |it| {
        it.is(OUTSIDE_WITH_BRANCH) && !it.least()
    }),
    ("3 at a face that is not the first", |it| {
        it.is(OUTSIDE_WITH_BRANCH) && it.answer.face > 0
    }),
    ("4", |it| it.is(OUTSIDE_BY_ITSELF)),
    ("4 at the root", |it| {
        it.is(OUTSIDE_BY_ITSELF) && it.at_root()
    }),
    ("4 on an open face", |it| {
        it.is(OUTSIDE_BY_ITSELF) && it.answer.margin == 0
    }),
    ("4 at a face that is not the first", |it| {
        it.is(OUTSIDE_BY_ITSELF) && it.answer.face > 0
    }),
    ("4 at a face without the least margin", |it| {
        it.is(OUTSIDE_BY_ITSELF) && !it.least()
    }),
    ("32 faces", |it| it.call.h == 32),
    ("an order longer than n", |it| {
        it.call.order.len() > it.call.n
    }),
];

impl Explained {
    /// Compares the explain call for a number, which must be accepted.
    fn new(region: &Lent, number: u32) -> Explained {
        let call = region.with_number(number).with_point(number);
        let answer = calls::explain(&call);
        assert_eq!(answer.code, 0, "{call:?}");
        Explained {
            own: reasons::own(&call),
            margins: margins::all(&call),
            call,
            answer,
        }
    }

    /// Whether it has this reason.
    fn is(&self, reason: u8) -> bool {
        self.answer.reason == reason
    }

    /// The face that is named, of an answer outside.
    fn face(&self) -> Option<usize> {
        Some(self.answer.face.into())
    }

    /// Whether the slot is the root's.
    fn at_root(&self) -> bool {
        usize::from(self.answer.slot) == self.call.n / 2
    }

    /// Whether the slot is the number's own.
    fn at_own(&self) -> bool {
        usize::from(self.answer.slot) == self.own
    }

    /// Whether no face has less than the margin told.
    fn least(&self) -> bool {
        self.margins.iter().all(|m| *m >= self.answer.margin)
    }
}

/// Compares explain on random shelves, each with two regions of any marks and some numbers, and asks that every case comes up.
#[test]
fn random_shelves() {
    let mut seen = Seen::of(&CASES);
    cases::make("explanations", SHELVES, |chance, case| {
        let shelf = shelves::in_turn(chance, case);
        let regions = [
            shelves::marked_region(chance, &shelf),
            region(chance, &shelf),
        ];
        for turn in 0..6.min(2 * shelf.n) {
            let number = chance.below(shelf.n) as u32;
            seen.look(&CASES, &Explained::new(&regions[turn % 2], number));
        }
    });
    seen.enough("explanations");
}

/// The shelf with a region of any marks and no faces, a few, or as many as are allowed.
fn region(chance: &mut Chance, shelf: &Lent) -> Lent {
    let h = chance.one_of(&[0, 1, 2, 3, 5, 8, 32]);
    let (normals, offsets) = faces::region(chance, shelf.k, &shelf.points, h);
    let closed = shelf.with_faces(normals, offsets);
    closed.with_marks(faces::marks(chance, h))
}

/// A shelf of up to 24 points of any kind with such a region.
fn small(chance: &mut Chance, case: usize) -> Lent {
    let (k, stock) = (1 + case % 4, chance.one_of(&Stock::ALL));
    let n = chance.below(25);
    let points = stock.points(chance, k, n);
    let shelf = calls::shelf(&Lent::new(chance, k, points));
    region(chance, &shelf)
}

/// Compares explain for every number of small shelves, and for the first that no point has. As many numbers are by themselves as there
/// are visits.
#[test]
fn all_numbers() {
    let mut seen = Seen::of(&CASES);
    cases::make("all numbers of small shelves", 1_200, |chance, case| {
        let region = small(chance, case);
        let n = region.n as u32;
        let explain = |number| Explained::new(&region, number);
        let all: Vec<Explained> = (0..n).map(explain).collect();
        let by_itself = |it: &&Explained| it.is(INSIDE_BY_ITSELF) || it.is(OUTSIDE_BY_ITSELF);
        let visits = all.iter().filter(by_itself).count();
        assert_eq!(visits, calls::list(&region).0.visits as usize, "{region:?}");
        all.iter().for_each(|it| seen.look(&CASES, it));
        assert_eq!(calls::explain(&region.with_number(n)).code, 17);
    });
    seen.enough("all numbers of small shelves");
}

/// Compares explain for each number of a row of points 0 to n - 1 with one face anywhere, either way round and with either mark.
#[test]
fn every_small_row() {
    let mut chance = Chance::new(cases::SEED);
    for n in 1..=9 {
        let shelf = calls::shelf(&Lent::new(&mut chance, 1, (0..n).collect()));
        for (offset, sign, mark) in every_face(n) {
            let face = shelf.with_faces(vec![sign], vec![i64::from(sign * offset)]);
            let region = face.with_marks(vec![mark]);
            for number in 0..n as u32 {
                Explained::new(&region, number);
            }
        }
    }
}

/// Each offset from -1 to n with each way round and each mark.
fn every_face(n: i32) -> Vec<(i32, i32, u8)> {
    let ways = [(1, CLOSED), (1, OPEN), (-1, CLOSED), (-1, OPEN)];
    let each = |offset| ways.map(|(sign, mark)| (offset, sign, mark));
    (-1..=n).flat_map(each).collect()
}

/// The answers for the six points of shelf A in shelf order, 1 5 0 2 3 4: reason, slot, face and margin of each.
fn of_a(normals: &[i32], offsets: &[i64], marks: &[u8]) -> [(u8, u16, u8, i64); 6] {
    let points = vec![1, 5, 4, 2, 4, 8, 7, 1, 6, 6, 2, 2];
    let a = calls::shelf(&Lent::new(&mut Chance::new(cases::SEED), 2, points));
    let region = a.with_faces(normals.to_vec(), offsets.to_vec());
    let region = region.with_marks(marks.to_vec());
    [1, 5, 0, 2, 3, 4].map(|number| {
        let answer = Explained::new(&region, number).answer;
        (answer.reason, answer.slot, answer.face, answer.margin)
    })
}

/// The two faces of the README: only slot 0 is settled, a branch of one slot. With the second face open point 4, which lies on it, is
/// outside.
#[test]
fn two_faces() {
    let mut expected = [
        (3, 0, 0, -1),
        (4, 1, 0, -3),
        (4, 2, 0, -1),
        (2, 3, 0, 0),
        (4, 4, 1, -1),
        (2, 5, 0, 0),
    ];
    let (normals, offsets) = ([1, 1, -1, 0], [7, -6]);
    assert_eq!(of_a(&normals, &offsets, &[CLOSED, CLOSED]), expected);
    expected[5] = (4, 5, 1, 0);
    assert_eq!(of_a(&normals, &offsets, &[CLOSED, OPEN]), expected);
}

/// The left branch, x 1 to 4, is wholly below face 1 alone. That face is named for its three points, though they are below face 0 too, and
/// so is its node's slot, though slot 0 is settled by face 0.
#[test]
fn nearest_the_root() {
    let expected = [
        (3, 1, 1, -1),
        (3, 1, 1, -3),
        (3, 1, 1, -4),
        (4, 3, 1, -1),
        (2, 4, 0, 0),
        (2, 5, 0, 0),
    ];
    assert_eq!(of_a(&[1, 1, 1, 0], &[7, 5], &[CLOSED, CLOSED]), expected);
}

/// The root is settled: its slot is named for all, and each point's own margin.
#[test]
fn whole_shelf() {
    assert_eq!(of_a(&[], &[], &[]), [(1, 3, 0, 0); 6]);
    assert_eq!(of_a(&[1, 0], &[1], &[CLOSED]), [(1, 3, 0, 0); 6]);
    let below = [4, 2, 1, 4, 7, 6].map(|x| (3, 3, 0, x - 7));
    assert_eq!(of_a(&[1, 0], &[7], &[OPEN]), below);
}
