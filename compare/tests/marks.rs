//! Faces with marks: shelf A worked out by hand, and random shelves with points and regions of every kind.

use compare::agree;
use compare::calls;
use compare::cases;
use compare::chance::Chance;
use compare::faces::lies_on;
use compare::lent::Lent;
use compare::seen::{Case, Seen};
use compare::shelves;
use compare::stock::Stock;
use hornherder::raw::{Listing, Screening};
use second::region::{Face, CLOSED, OPEN};

/// How many shelves there are, as many of each kind of points.
const SHELVES: usize = 400 * Stock::ALL.len();

/// One region with its marks, and with all its faces closed.
struct Marked {
    call: Lent,
    listing: Listing,
    screening: Screening,
    closed_listing: Listing,
    closed_screening: Screening,
    /// The numbers inside, and those that would be if all faces were closed.
    inside: Vec<u32>,
    closed_inside: Vec<u32>,
}

/// Every case.
const CASES: [Case<Marked>; 14] = [
    ("all closed", |marked| marked.only(CLOSED)),
    ("all open", |marked| marked.only(OPEN)),
    ("all open, and another answer than closed", |marked| {
        marked.only(OPEN) && marked.listing != marked.closed_listing
    }),
    ("both marks", |marked| {
        marked.has(CLOSED) && marked.has(OPEN)
    }),
    ("open faces, and the answers of closed ones", |marked| {
        marked.has(OPEN)
            && marked.listing == marked.closed_listing
            && marked.screening == marked.closed_screening
    }),
    ("outside only for lying on an open face", |marked| {
        marked.inside.len() < marked.closed_inside.len()
    }),
    ("all outside only for lying on open faces", |marked| {
        marked.inside.is_empty() && !marked.closed_inside.is_empty()
    }),
    ("inside on a closed face", |marked| marked.inside_on(CLOSED)),
    ("inside on a closed face, beside an open one", |marked| {
        marked.has(OPEN) && marked.inside_on(CLOSED)
    }),
    ("settled only by a mark", |marked| {
        marked.listing.visits < marked.closed_listing.visits
    }),
    ("open only by a mark", |marked| {
        marked.listing.visits > marked.closed_listing.visits
    }),
    ("other visits and the same inside", |marked| {
        marked.listing.visits != marked.closed_listing.visits
            && marked.inside == marked.closed_inside
    }),
    ("the screen finds another", |marked| {
        marked.screening.found == 1 && marked.screening.number != marked.closed_screening.number
    }),
    ("the screen finds none any more", |marked| {
        marked.screening.found < marked.closed_screening.found
    }),
];

impl Marked {
    /// Compares list, screen and the one-point test on a region with these marks, and list and screen with all faces closed.
    fn new(chance: &mut Chance, call: Lent) -> Marked {
        let closed = call.with_marks(vec![CLOSED; call.h]);
        let (closed_listing, closed_list) = calls::list(&closed);
        let (listing, list) = calls::list(&call);
        assert_eq!(listing.code, 0);
        agree::hold(chance, &call, listing.inside, &list);
        Marked {
            screening: calls::screen(&call),
            closed_screening: calls::screen(&closed),
            inside: list[..listing.inside as usize].to_vec(),
            closed_inside: closed_list[..closed_listing.inside as usize].to_vec(),
            call,
            listing,
            closed_listing,
        }
    }

    /// Asks of the one-point test that the first point which only the marks put outside is outside, and is inside where all faces
    /// are closed.
    fn placed(&self) {
        let mut inside = self.inside.iter();
        let mut numbers = self.closed_inside.iter();
        if let Some(number) = numbers.find(|number| inside.next() != Some(number)) {
            let call = self.call.with_point(*number);
            let closed = call.with_marks(vec![CLOSED; call.h]);
            let both = [&call, &closed].map(|call| calls::place(call).inside);
            assert_eq!(both, [0, 1], "{call:?}");
        }
    }

    /// Whether a face has this mark.
    fn has(&self, mark: u8) -> bool {
        self.call.marks.contains(&mark)
    }

    /// Whether there are faces, and all have this mark.
    fn only(&self, mark: u8) -> bool {
        self.call.h > 0 && self.call.marks.iter().all(|&of_face| of_face == mark)
    }

    /// Whether a point inside lies on a face with this mark.
    fn inside_on(&self, mark: u8) -> bool {
        let faces = self.call.faces();
        let mut marked = faces.iter().filter(|face| face.mark == mark);
        marked.any(|face| {
            let on = |number: &u32| lies_on(face, self.call.point_of(*number));
            self.inside.iter().any(on)
        })
    }
}

/// Compares every call on random shelves, each with regions of all marks, and asks that every case comes up. No point inside lies
/// on an open face, and marks of closed faces alone change nothing.
#[test]
fn random_shelves() {
    let mut seen = Seen::of(&CASES);
    cases::make("marks", SHELVES, |chance, case| {
        let shelf = shelves::in_turn(chance, case);
        for _ in 0..2 {
            let call = shelves::marked_region(chance, &shelf);
            let marked = Marked::new(chance, call);
            marked.placed();
            assert!(!marked.inside_on(OPEN), "{:?}", marked.call);
            assert!(marked.has(OPEN) || marked.listing == marked.closed_listing);
            seen.look(&CASES, &marked);
        }
    });
    seen.enough("marks");
}

/// The counts and the list of one face on the six points of shelf A, which stand in the order 1 5 0 2 3 4.
fn listed(normal: [i32; 2], offset: i64, mark: u8) -> ([u32; 3], Vec<u32>) {
    let call = shelf_a(normal, offset, mark);
    let (answer, mut list) = calls::list(&call);
    list.truncate(call.n);
    ([answer.inside, answer.outside, answer.visits], list)
}

/// Shelf A with one face.
fn shelf_a(normal: [i32; 2], offset: i64, mark: u8) -> Lent {
    let points = vec![1, 5, 4, 2, 4, 8, 7, 1, 6, 6, 2, 2];
    let a = calls::shelf(&Lent::new(&mut Chance::new(cases::SEED), 2, points));
    let normal = normal.to_vec();
    a.with_face(&Face {
        normal,
        offset,
        mark,
    })
}

/// Points 0 and 1 lie on the face (1, 1), m 6, and belong to exactly one of two bins beside marked. The box of slot 0 has sums from 2 to
/// 6: wholly below the open face, and wholly above the closed mirror.
#[test]
fn bins_by_hand() {
    let (up, down) = ([1, 1], [-1, -1]);
    let closed = listed(up, 6, CLOSED);
    assert_eq!(closed, ([5, 1, 6], vec![1, 0, 2, 3, 4, 5]));
    let its_mirror = listed(down, -6, OPEN);
    assert_eq!(its_mirror, ([1, 5, 6], vec![5, 4, 3, 2, 0, 1]));
    let open = listed(up, 6, OPEN);
    assert_eq!(open, ([3, 3, 5], vec![2, 3, 4, 0, 5, 1]));
    let its_mirror = listed(down, -6, CLOSED);
    assert_eq!(its_mirror, ([3, 3, 5], vec![1, 5, 0, 4, 3, 2]));
    for number in [0, 1] {
        let place = |mark| calls::place(&shelf_a(up, 6, mark).with_point(number)).inside;
        assert_eq!((place(CLOSED), place(OPEN)), (1, 0));
    }
    let screened = |mark| calls::screen(&shelf_a(up, 6, mark));
    assert_eq!((screened(CLOSED).number, screened(CLOSED).visits), (1, 1)); // slot 0, which is open
    assert_eq!((screened(OPEN).number, screened(OPEN).visits), (2, 3)); // slot 3; slots 1, 2 and 3 are open
}

/// At the ends of the root box, x from 1 to 7, the mark decides whether the whole shelf is settled.
#[test]
fn ends_by_hand() {
    assert_eq!(listed([1, 0], 1, CLOSED).0, [6, 0, 0]);
    let least = listed([1, 0], 1, OPEN); // slots 0 to 3 are open, point 0 has x 1
    assert_eq!(least, ([5, 1, 4], vec![1, 5, 2, 3, 4, 0]));
    assert_eq!(listed([1, 0], 7, CLOSED).0, [1, 5, 3]);
    assert_eq!(listed([1, 0], 7, OPEN).0, [0, 6, 0]);
    assert_eq!(listed([0, 0], 0, CLOSED).0, [6, 0, 0]);
    assert_eq!(listed([0, 0], 0, OPEN).0, [0, 6, 0]);
    assert_eq!(listed([0, 0], -1, OPEN).0, [6, 0, 0]);
}
