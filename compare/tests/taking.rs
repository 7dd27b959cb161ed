//! Take and withdraw: each limit on both sides, every refusal, one fault at a time and two and three at once.

use compare::cases;
use compare::chance::Chance;
use compare::changes;
use compare::faults::{first, first_in_order, last, two_or_three};
use compare::lent::{shorten, Lent};
use compare::live;
use compare::seen::Seen;
use compare::shelves;
use compare::stock::Stock;
use second::live::{DEAD, LIVE};

/// What is lent to both calls: these live bytes and points for the live numbers, a right point to be taken, and number 0 to be withdrawn.
fn right(chance: &mut Chance, k: usize, live: Vec<u8>) -> Lent {
    let points = Stock::Extremes.points(chance, k, live::count(&live));
    let shelf = Lent::new(chance, k, points);
    Lent {
        point: Stock::Extremes.points(chance, k, 1),
        ..shelves::among_dead(chance, &shelf, live)
    }
}

/// Asks what take and withdraw answer once this is changed.
fn answers(right: &Lent, change: impl FnOnce(&mut Lent), take: u32, withdraw: u32) {
    let mut call = right.clone();
    change(&mut call);
    assert_eq!(changes::take(&call).0.code, take, "take of {call:?}");
    let code = changes::withdraw(&call).0;
    assert_eq!(code, withdraw, "withdraw of {call:?}");
}

/// k 1 to 4 pass, 0, 5 and more do not; withdraw is not told k.
#[test]
fn dimension() {
    let mut chance = Chance::new(cases::SEED);
    for k in 1..=4 {
        let right = right(&mut chance, k, vec![LIVE, DEAD, LIVE]);
        answers(&right, |_| (), 0, 0);
        for other in [0, 5, 6, 1 << 32 | k, usize::MAX] {
            answers(&right, |call| call.k = other, 1, 0);
        }
    }
    let mut five = right(&mut chance, 4, vec![LIVE, DEAD, LIVE]);
    five.points = vec![0; 15];
    five.point = vec![0; 5];
    answers(&five, |call| call.k = 5, 1, 0);
}

/// n 65,535 passes, 65,536 does not. The only dead number is taken wherever it is, and with none dead there is no room.
#[test]
fn most_numbers() {
    let mut chance = Chance::new(cases::SEED);
    for (k, dead) in [(1, 65_534), (4, 1), (3, 40_000)] {
        let mut live = live::all(65_535);
        live[dead] = DEAD;
        let right = right(&mut chance, k, live);
        let (answer, after) = changes::take(&right);
        assert_eq!((answer.code, answer.number as usize), (0, dead));
        answers(&after, |_| (), 16, 0);
        answers(&right, |call| call.number = dead as u32, 0, 17);
        let more = |call: &mut Lent| {
            call.n += 1;
            call.points.extend(vec![0; k]);
            call.live.push(DEAD);
        };
        answers(&right, more, 2, 2);
    }
}

/// Every slice one shorter, as it should be, and one longer.
#[test]
fn lengths() {
    let mut chance = Chance::new(cases::SEED);
    for (k, n) in [(1, 2), (2, 5), (3, 64), (4, 300)] {
        let mut live = live::all(n);
        live[n - 1] = DEAD;
        let right = right(&mut chance, k, live);
        answers(&right, |_| (), 0, 0);
        answers(&right, |call| call.points.push(0), 3, 0);
        answers(&right, |call| shorten(&mut call.points), 3, 0);
        answers(&right, |call| call.point.push(0), 3, 0);
        answers(&right, |call| shorten(&mut call.point), 3, 0);
        answers(&right, |call| call.live.push(DEAD), 15, 15);
        answers(&right, |call| shorten(&mut call.live), 15, 15);
        answers(&right, |call| call.live.clear(), 15, 15);
    }
}

/// The live bytes 0 and 1 pass and all greater ones do not, wherever they stand.
#[test]
fn bytes() {
    let mut chance = Chance::new(cases::SEED);
    for k in 1..=4 {
        let right = right(&mut chance, k, vec![LIVE, LIVE, DEAD, LIVE, DEAD]);
        for place in 1..5 {
            for byte in 0..=u8::MAX {
                let code = if byte < 2 { 0 } else { 15 };
                answers(
                    &right,
                    |call| call.live[place] = byte,
                    code_of_take(&right, place, byte),
                    code,
                );
            }
        }
    }
}

/// What take answers once a byte of this row is another: a number that becomes live must have a right point.
fn code_of_take(right: &Lent, place: usize, byte: u8) -> u32 {
    let range = -32_768..=32_767;
    let point = right.point_of(place as u32);
    match byte {
        DEAD => 0,
        LIVE if point.iter().all(|x| range.contains(x)) => 0,
        LIVE => 5,
        _ => 15,
    }
}

/// The ends of a coordinate's range pass and the numbers beyond do not, wherever they stand among live numbers and in the new point; a dead
/// number's are not asked.
#[test]
fn coordinates() {
    let mut chance = Chance::new(cases::SEED);
    for k in 1..=4 {
        let right = right(&mut chance, k, vec![LIVE, DEAD, LIVE, DEAD]);
        for (x, code) in [
            (-32_768, 0),
            (32_767, 0),
            (-32_769, 5),
            (32_768, 5),
            (i32::MIN, 5),
        ] {
            for place in 0..4 * k {
                let live = right.live[place / k] == LIVE;
                let expected = if live { code } else { 0 };
                answers(&right, |call| call.points[place] = x, expected, 0);
            }
            for place in 0..k {
                answers(&right, |call| call.point[place] = x, code, 0);
            }
        }
    }
}

/// A live number is withdrawn; a dead one, n and those beyond are not; none is where there are no numbers.
#[test]
fn numbers() {
    let mut chance = Chance::new(cases::SEED);
    for n in [0, 1, 2, 7, 300, 65_535] {
        let live: Vec<u8> = (0..n).map(|number| u8::from(number % 3 != 1)).collect();
        let right = right(&mut chance, 1, live);
        let take = if n < 2 { 16 } else { 0 };
        let end = n as u32;
        for number in [
            0,
            1,
            2,
            end.wrapping_sub(1),
            end,
            end + 1,
            65_536,
            65_536 + end,
            u32::MAX,
        ] {
            let code = if right.is_live(number) { 0 } else { 17 };
            answers(&right, |call| call.number = number, take, code);
        }
    }
}

/// The calls, as parts of a sum.
const TAKE: u8 = 1;
const WITHDRAW: u8 = 2;
const BOTH: u8 = TAKE | WITHDRAW;

/// Each call: its name, its part of the sum, and the numbers that it may refuse with, in the order of its tests.
const CALLS: [(&str, u8, &[u32]); 2] = [
    ("take", TAKE, &[1, 2, 3, 15, 5, 16]),
    ("withdraw", WITHDRAW, &[2, 15, 17]),
];

/// A fault: the number that it is refused with, the calls that refuse it, and how it is made.
type Fault = (u32, u8, fn(&mut Lent));

/// Every fault that needs no dead number.
const FAULTS: [Fault; 29] = [
    (1, TAKE, |lent| lent.k = 0),
    (1, TAKE, |lent| lent.k = 5),
    (1, TAKE, |lent| lent.k = usize::MAX),
    (2, BOTH, |lent| lent.n = 65_536),
    (2, BOTH, |lent| lent.n = usize::MAX),
    (3, TAKE, |lent| lent.points.push(0)),
    (3, TAKE, |lent| shorten(&mut lent.points)),
    (3, TAKE, |lent| lent.points.clear()),
    (3, TAKE, |lent| lent.point.push(0)),
    (3, TAKE, |lent| shorten(&mut lent.point)),
    (3, TAKE, |lent| lent.point.clear()),
    (15, BOTH, |lent| lent.live.push(LIVE)),
    (15, BOTH, |lent| lent.live.push(DEAD)),
    (15, BOTH, |lent| shorten(&mut lent.live)),
    (15, BOTH, |lent| lent.live.clear()),
    (15, BOTH, |lent| first(&mut lent.live, 2)),
    (15, BOTH, |lent| last(&mut lent.live, 255)),
    (5, TAKE, |lent| first(&mut lent.points, 32_768)),
    (5, TAKE, |lent| last(&mut lent.points, -32_769)),
    (5, TAKE, |lent| last(&mut lent.points, i32::MAX)),
    (5, TAKE, |lent| first(&mut lent.point, -32_769)),
    (5, TAKE, |lent| last(&mut lent.point, 32_768)),
    (5, TAKE, |lent| last(&mut lent.point, i32::MIN)),
    (17, WITHDRAW, |lent| lent.number = 5),
    (17, WITHDRAW, |lent| lent.number = 6),
    (17, WITHDRAW, |lent| lent.number = 65_535),
    (17, WITHDRAW, |lent| lent.number = 65_536),
    (17, WITHDRAW, |lent| lent.number = 1 << 31),
    (17, WITHDRAW, |lent| lent.number = u32::MAX),
];

/// The faults that need the numbers 1 and 3 dead.
const DEAD_FAULTS: [Fault; 2] = [
    (17, WITHDRAW, |lent| lent.number = 1),
    (17, WITHDRAW, |lent| lent.number = 3),
];

/// A shelf of five numbers, with the numbers that its take refuses it with though nothing is wrong, and its faults.
type Shelf = (Lent, &'static [u32], Vec<Fault>);

/// A shelf on which the numbers 1 and 3 are dead, and a full one.
fn two_shelves(chance: &mut Chance, k: usize) -> [Shelf; 2] {
    let dead = right(chance, k, vec![LIVE, DEAD, LIVE, DEAD, LIVE]);
    let full = right(chance, k, live::all(5));
    let more = [&FAULTS[..], &DEAD_FAULTS].concat();
    [(dead, &[], more), (full, &[16], FAULTS.to_vec())]
}

/// How often each call answers each of its numbers.
fn numbers_seen() -> Seen<(&'static str, u32)> {
    let numbers = |tests: &'static [u32]| [0].into_iter().chain(tests.iter().copied());
    let of_call = |(name, _, tests)| numbers(tests).map(move |number| (name, number));
    Seen::new(CALLS.into_iter().flat_map(of_call))
}

/// Compares both calls on a shelf with these faults, and the numbers with that of the fault that is first in the call's order.
fn refused(shelf: &Shelf, faults: &[Fault], seen: &mut Seen<(&'static str, u32)>) {
    let mut lent = shelf.0.clone();
    for (_, _, make) in faults {
        make(&mut lent);
    }
    for (name, call, tests) in CALLS {
        let (code, own) = match call {
            TAKE => (changes::take(&lent).0.code, shelf.1),
            _ => (changes::withdraw(&lent).0, &[][..]),
        };
        let concerned = faults.iter().filter(|(_, calls, _)| calls & call != 0);
        let made = concerned.map(|(number, _, _)| *number);
        let numbers: Vec<u32> = made.chain(own.iter().copied()).collect();
        if let Some(number) = first_in_order(&numbers, tests) {
            assert_eq!(code, number, "{name} of {lent:?}");
        }
        seen.count((name, code));
    }
}

/// No fault, and each by itself.
#[test]
fn one_fault() {
    let mut seen = numbers_seen();
    cases::make("one fault in take and withdraw", 60, |chance, case| {
        for shelf in two_shelves(chance, 1 + case % 4) {
            refused(&shelf, &[], &mut seen);
            for fault in &shelf.2 {
                refused(&shelf, &[*fault], &mut seen);
            }
        }
    });
    seen.enough("one fault in take and withdraw");
}

/// Every two and every three faults at once, in each dimension.
#[test]
fn two_or_three_faults() {
    let mut seen = numbers_seen();
    cases::make("faults in take and withdraw", 8, |chance, case| {
        for shelf in two_shelves(chance, 1 + case % 4) {
            two_or_three(&shelf.2, |some| refused(&shelf, some, &mut seen));
        }
    });
    seen.enough("faults in take and withdraw");
}
