//! Shelves with dead numbers: random ones with points and regions of every kind, whose dead numbers have any coordinates.

use compare::agree;
use compare::calls;
use compare::cases;
use compare::chance::Chance;
use compare::faces;
use compare::lent::Lent;
use compare::renamed;
use compare::seen::{Case, Seen};
use compare::several::{self, Several};
use compare::shelves;
use compare::stock::Stock;
use hornherder::raw::{Explaining, Listing, Screening};
use second::live::LIVE;

/// How many shelves there are, as many of each kind of points.
const SHELVES: usize = 300 * Stock::ALL.len();

/// A region on a shelf with dead numbers, and what list and screen answered.
struct Listed {
    call: Lent,
    v: usize,
    listing: Listing,
    screening: Screening,
}

/// Every case.
const CASES: [Case<Listed>; 18] = [
    ("some dead", |it| it.v > 0 && it.v < it.call.n),
    ("all dead", |it| it.v == 0 && it.call.n > 0),
    ("none dead", |it| it.v > 0 && it.v == it.call.n),
    ("one live among others", |it| it.v == 1 && it.call.n > 1),
    ("number 0 dead", |it| it.is_dead(0)),
    ("the last number dead", |it| {
        it.is_dead(it.call.n as u32 - 1)
    }),
    ("a dead coordinate out of range", |it| {
        let range = -32_768..=32_767;
        it.call.points.iter().any(|x| !range.contains(x))
    }),
    ("an order shorter than n", |it| {
        it.call.order.len() < it.call.n
    }),
    ("an order longer than v", |it| it.call.order.len() > it.v),
    ("an order of v places", |it| it.call.order.len() == it.v),
    ("a list shorter than n", |it| it.call.list.len() < it.call.n),
    ("a list longer than v", |it| it.call.list.len() > it.v),
    ("none inside", |it| {
        it.counted(|inside, outside| inside == 0 && outside > 0)
    }),
    ("none outside", |it| {
        it.counted(|inside, outside| inside > 0 && outside == 0)
    }),
    ("some of both", |it| {
        it.counted(|inside, outside| inside > 0 && outside > 0)
    }),
    ("visits", |it| it.listing.visits > 0),
    ("found", |it| it.screening.found == 1 && it.v < it.call.n),
    ("none found", |it| {
        it.screening.found == 0 && it.v < it.call.n
    }),
];

impl Listed {
    /// Compares list and screen on a region, which must be accepted, and holds them to the live points alone.
    fn new(chance: &mut Chance, call: Lent) -> Listed {
        let (listing, list) = calls::list(&call);
        let screening = calls::screen(&call);
        assert_eq!((listing.code, screening.code), (0, 0), "{call:?}");
        agree::hold(chance, &call, listing.inside, &list);
        renamed::hold(&call);
        Listed {
            v: call.v(),
            call,
            listing,
            screening,
        }
    }

    /// Whether a number is there and dead.
    fn is_dead(&self, number: u32) -> bool {
        (number as usize) < self.call.n && !self.call.is_live(number)
    }

    /// Whether the counts of a shelf with dead numbers are so.
    fn counted(&self, are: fn(u32, u32) -> bool) -> bool {
        self.v < self.call.n && are(self.listing.inside, self.listing.outside)
    }
}

/// A shelf with dead numbers, of the kind of points and the dimension whose turn it is.
fn in_turn(chance: &mut Chance, case: usize) -> Lent {
    let kinds = Stock::ALL.len();
    let most = chance.one_of(&[3, 12, 80, 600]);
    shelves::with_dead(chance, Stock::ALL[case % kinds], 1 + case / kinds % 4, most)
}

/// Compares list and screen on random shelves with dead numbers, each with two regions of any marks, and asks that every case comes up.
#[test]
fn random_shelves() {
    let mut seen = Seen::of(&CASES);
    cases::make("shelves with dead numbers", SHELVES, |chance, case| {
        let shelf = in_turn(chance, case);
        for _ in 0..2 {
            let call = shelves::marked_region(chance, &shelf);
            seen.look(&CASES, &Listed::new(chance, call));
        }
    });
    seen.enough("shelves with dead numbers");
}

/// A number that was asked about, and the answer.
struct Asked {
    call: Lent,
    answer: Explaining,
}

/// Every case.
const ASKED: [Case<Asked>; 6] = [
    ("1", |it| it.answer.reason == 1),
    ("2", |it| it.answer.reason == 2),
    ("3", |it| it.answer.reason == 3),
    ("4", |it| it.answer.reason == 4),
    ("17, dead", |it| {
        it.refused() && (it.call.number as usize) < it.call.n
    }),
    ("17, n or more", |it| {
        it.refused() && it.call.number as usize >= it.call.n
    }),
];

impl Asked {
    /// Whether it was refused for its number.
    fn refused(&self) -> bool {
        self.answer.code == 17
    }
}

/// Compares explain for every number of small shelves with dead numbers, and for some that are n or more. As many numbers are by
/// themselves as there are visits.
#[test]
fn every_number() {
    let mut seen = Seen::of(&ASKED);
    cases::make("numbers beside dead ones", 1_500, |chance, case| {
        let stock = chance.one_of(&Stock::ALL);
        let shelf = shelves::with_dead(chance, stock, 1 + case % 4, 20);
        let region = shelves::marked_region(chance, &shelf);
        let n = region.n as u32;
        let mut by_itself = 0;
        for number in (0..n).chain([n, n + 1, 65_536 + n, u32::MAX]) {
            let call = region.with_number(number);
            let answer = calls::explain(&call);
            let code = if call.is_live(number) { 0 } else { 17 };
            assert_eq!(answer.code, code, "{call:?}");
            by_itself += u32::from([2, 4].contains(&answer.reason));
            seen.look(&ASKED, &Asked { call, answer });
        }
        assert_eq!(by_itself, calls::list(&region).0.visits, "{region:?}");
    });
    seen.enough("numbers beside dead ones");
}

/// Several regions on a shelf with dead numbers.
const REGIONS: [Case<Several>; 8] = [
    ("some dead", |call| {
        call.lent.v() > 0 && call.lent.v() < call.lent.n
    }),
    ("all dead", |call| call.lent.v() == 0 && call.lent.n > 0),
    ("none dead", |call| {
        call.lent.v() > 0 && call.lent.v() == call.lent.n
    }),
    ("1 region", |call| call.regions == 1),
    ("64 regions", |call| call.regions == 64),
    ("lists shorter than n for each", |call| {
        call.lists.len() < call.regions * call.lent.n
    }),
    ("lists longer than v for each", |call| {
        call.lists.len() > call.regions * call.lent.v()
    }),
    ("nothing longer than asked", |call| {
        *call == call.clone().exact()
    }),
];

/// Compares the call for several regions on random shelves with dead numbers: region r's list starts at place r times v.
#[test]
fn several_regions() {
    let mut seen = Seen::of(&REGIONS);
    cases::make(
        "several regions beside dead numbers",
        1_500,
        |chance, case| {
            let stock = chance.one_of(&Stock::ALL);
            let most = chance.one_of(&[3, 30, 150]);
            let shelf = shelves::with_dead(chance, stock, 1 + case % 4, most);
            let count = chance.one_of(&[1, 2, 3, 5, 9, 64]);
            let regions: Vec<Lent> = (0..count)
                .map(|_| shelves::marked_region(chance, &shelf))
                .collect();
            let call = Several::new(chance, &shelf, &regions);
            let exact = chance.below(3) == 0;
            let call = if exact { call.exact() } else { call };
            assert_eq!(several::list(&call).0, 0, "{call:?}");
            seen.look(&REGIONS, &call);
        },
    );
    seen.enough("several regions beside dead numbers");
}

/// Each limit of a buffer on both sides, where v is below n: v places pass and one fewer does not, whatever n is.
#[test]
fn room_for_the_live() {
    cases::make("room for the live", 120, |chance, case| {
        let k = 1 + case % 4;
        let shelf = shelves::with_dead(chance, Stock::Ties, k, 12);
        let (v, regions) = (shelf.v(), [shelf.clone(), shelf.clone()]);
        let several = Several::new(chance, &shelf, &regions).exact();
        assert_eq!(several::list(&several).0, 0);
        for places in [v.saturating_sub(1), v, v + 1] {
            let code = if places < v { 4 } else { 0 };
            let mut call = shelf.clone();
            call.order = chance.contents(places);
            let (answer, order) = calls::arrange(&call);
            assert_eq!(answer.code, code, "{call:?}");
            let call = call.with_order(&order);
            assert_eq!(calls::screen(&call).code, code, "{call:?}");
            let mut call = shelf.clone();
            call.list = chance.contents(places);
            assert_eq!(calls::list(&call).0.code, code, "{call:?}");
        }
        let mut short = several;
        if short.lists.pop().is_some() {
            assert_eq!(several::list(&short).0, 4, "{short:?}");
        }
    });
}

/// The live bytes 0 and 1 pass and all greater ones do not, wherever they stand.
#[test]
fn every_byte() {
    let mut chance = Chance::new(cases::SEED);
    for k in 1..=4 {
        let points = Stock::Extremes.points(&mut chance, k, 5);
        let all = Lent::new(&mut chance, k, points);
        for place in 0..5 {
            for byte in 0..=u8::MAX {
                let mut call = all.clone();
                call.live[place] = byte;
                let code = if byte < 2 { 0 } else { 15 };
                let (answer, order) = calls::arrange(&call);
                assert_eq!(answer.code, code, "{call:?}");
                let call = call.with_order(&order);
                assert_eq!(calls::list(&call).0.code, code, "{call:?}");
                assert_eq!(calls::screen(&call).code, code, "{call:?}");
                let other = call.with_number((place as u32 + 1) % 5);
                assert_eq!(calls::explain(&other).code, code, "{call:?}");
                let several = Several::new(&mut chance, &call, &[]);
                let several = Several {
                    regions: 0,
                    ..several
                };
                let expected = if byte < 2 { 14 } else { 15 };
                assert_eq!(several::list(&several).0, expected, "{call:?}");
            }
        }
    }
}

/// A coordinate out of range is refused exactly where its number is live.
#[test]
fn coordinates() {
    cases::make("coordinates beside dead numbers", 200, |chance, case| {
        let k = 1 + case % 4;
        let shelf = shelves::with_dead(chance, Stock::Spread, k, 8);
        let everywhere = faces::region(chance, k, &shelf.live_points(), 1);
        let shelf = shelf.with_faces(everywhere.0, everywhere.1);
        for place in 0..k * shelf.n {
            for number in [i32::MIN, -32_769, 32_768, i32::MAX] {
                let mut call = shelf.clone();
                call.points[place] = number;
                let live = call.live[place / k] == LIVE;
                let code = if live { 5 } else { 0 };
                let answer = calls::arrange(&call).0;
                assert_eq!(answer.code, code, "{call:?}");
                assert_eq!(answer.already == 1, code == 0, "{call:?}");
                assert_eq!(calls::list(&call).0.code, code, "{call:?}");
                assert_eq!(calls::screen(&call).code, code, "{call:?}");
                let one = [call.clone()];
                let several = Several::new(chance, &call, &one);
                assert_eq!(several::list(&several).0, code, "{call:?}");
            }
        }
    });
}
