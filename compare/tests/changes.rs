//! Taking points in and withdrawing them: long sequences on one shelf, and every small row of live bytes.

use compare::calls;
use compare::cases;
use compare::chance::Chance;
use compare::changes;
use compare::lent::Lent;
use compare::live;
use compare::seen::Seen;
use compare::shelves;
use compare::stock::Stock;
use second::live::DEAD;

/// A shelf with room for so many points and none taken yet, whose dead numbers have any coordinates, and whose order holds anything.
fn empty(chance: &mut Chance, k: usize, n: usize) -> Lent {
    let none = Lent::new(chance, k, Vec::new());
    let mut shelf = shelves::among_dead(chance, &none, vec![DEAD; n]);
    let behind = chance.below(3);
    shelf.order = chance.contents(n + behind);
    shelf.list = chance.contents(n + behind);
    shelf
}

/// The same shelf with a point of this kind to be taken.
fn with_newcomer(chance: &mut Chance, shelf: &Lent, stock: Stock) -> Lent {
    Lent {
        point: stock.points(chance, shelf.k, 1),
        ..shelf.clone()
    }
}

/// Every case of a sequence.
const STEPS: [&str; 16] = [
    "take: done",
    "take: the number that was withdrawn last",
    "take: the last number",
    "take: 16",
    "withdraw: done",
    "withdraw: the last one live",
    "withdraw: 17, dead",
    "withdraw: 17, n or more",
    "after take: no longer the tree",
    "after take: the tree",
    "after withdraw: no longer the tree",
    "after withdraw: the tree",
    "arrange: arranged",
    "arrange: already",
    "list: 0",
    "list: 9",
];

/// A shelf in the course of its changes, beside what they should come to.
struct Course {
    shelf: Lent,
    takes: usize,
    withdrawals: usize,
    /// The number that was withdrawn last, if none was taken since.
    freed: Option<u32>,
}

impl Course {
    /// Takes a point in.
    fn take(&mut self, chance: &mut Chance, stock: Stock, seen: &mut Seen<&'static str>) {
        let (answer, after) = changes::take(&with_newcomer(chance, &self.shelf, stock));
        if answer.code == 16 {
            assert_eq!(self.shelf.v(), self.shelf.n, "{:?}", self.shelf);
            return seen.count("take: 16");
        }
        assert_eq!(answer.code, 0, "{:?}", self.shelf);
        seen.count("take: done");
        if self.freed.take() == Some(answer.number) {
            seen.count("take: the number that was withdrawn last");
        }
        if answer.number as usize + 1 == self.shelf.n {
            seen.count("take: the last number");
        }
        self.takes += 1;
        self.shelf = after;
        seen.count(match calls::is_shelf(&self.shelf) {
            true => "after take: the tree",
            false => "after take: no longer the tree",
        });
    }

    /// Withdraws a number, be it live, dead, or n or more.
    fn withdraw(&mut self, number: u32, seen: &mut Seen<&'static str>) {
        let call = self.shelf.with_number(number);
        let (code, after) = changes::withdraw(&call);
        if code == 17 {
            return seen.count(match (number as usize) < call.n {
                true => "withdraw: 17, dead",
                false => "withdraw: 17, n or more",
            });
        }
        assert_eq!(code, 0, "{call:?}");
        seen.count("withdraw: done");
        if after.v() == 0 {
            seen.count("withdraw: the last one live");
        }
        self.withdrawals += 1;
        self.freed = Some(number);
        self.shelf = after;
        seen.count(match calls::is_shelf(&self.shelf) {
            true => "after withdraw: the tree",
            false => "after withdraw: no longer the tree",
        });
    }

    /// Asks that the total is the starting total, which is 0, plus takes done minus withdrawals done.
    fn total(&self) {
        let total = self.takes - self.withdrawals;
        assert_eq!(self.shelf.v(), total, "{:?}", self.shelf);
    }

    /// Lists the shelf with a region, by the order as it is.
    fn list(&self, chance: &mut Chance, seen: &mut Seen<&'static str>) {
        let region = shelves::marked_region(chance, &self.shelf);
        seen.count(match calls::list(&region).0.code {
            0 => "list: 0",
            9 => "list: 9",
            code => panic!("{code} of {region:?}"),
        });
    }

    /// Arranges the shelf.
    fn arrange(&mut self, seen: &mut Seen<&'static str>) {
        let (answer, order) = calls::arrange(&self.shelf);
        assert_eq!(answer.code, 0, "{:?}", self.shelf);
        seen.count(match answer.already {
            0 => "arrange: arranged",
            _ => "arrange: already",
        });
        self.shelf = self.shelf.with_order(&order);
    }
}

/// One step, which leads to more live numbers or, on the way back, to fewer.
fn step(
    chance: &mut Chance,
    course: &mut Course,
    back: bool,
    stock: Stock,
    seen: &mut Seen<&'static str>,
) {
    let n = course.shelf.n;
    let some = chance.below(n + 2) as u32;
    let last_slot = course.shelf.slots().last().copied().unwrap_or(some);
    match (chance.below(10), back) {
        (0, _) => course.arrange(seen),
        (1, _) => course.list(chance, seen),
        (2, _) => course.withdraw(some, seen),
        (3, _) => course.take(chance, stock, seen),
        (4..=8, false) => course.take(chance, stock, seen),
        (4..=6, true) => course.withdraw(some, seen),
        (7..=8, true) => course.withdraw(last_slot, seen),
        _ => course.withdraw(chance.one_of(&[0, last_slot, n as u32]), seen),
    }
    course.total();
}

/// Long sequences of take, withdraw, arrange and list on one shelf, from empty to full and back.
#[test]
fn sequences() {
    let (mut seen, sizes) = (Seen::new(STEPS), [2, 5, 14, 40]);
    cases::make("sequences of changes", 1_200, |chance, case| {
        let (k, n) = (1 + case % 4, 1 + chance.below(sizes[case / 4 % 4]));
        let stock = Stock::ALL[case / 4 % Stock::ALL.len()];
        let mut course = Course {
            shelf: empty(chance, k, n),
            takes: 0,
            withdrawals: 0,
            freed: None,
        };
        for back in [false, true, false, true] {
            let end = if back { 0 } else { n };
            while course.shelf.v() != end || chance.below(4) > 0 {
                step(chance, &mut course, back, stock, &mut seen);
            }
        }
        course.arrange(&mut seen);
        course.list(chance, &mut seen);
    });
    seen.enough("sequences of changes");
}

/// Every row of up to 8 live bytes: a take gets its lowest dead number, and each number is withdrawn exactly where it is live. Whether the
/// order of before a withdrawal is still the tree goes by what is live afterwards.
#[test]
fn every_row() {
    let mut chance = Chance::new(cases::SEED);
    for n in 0..=8 {
        for row in 0..1_u32 << n {
            let live: Vec<u8> = (0..n).map(|number| (row >> number & 1) as u8).collect();
            let points = Stock::Ties.points(&mut chance, 2, live::count(&live));
            let shelf = Lent::new(&mut chance, 2, points);
            let shelf = calls::shelf(&shelves::among_dead(&mut chance, &shelf, live));
            let dead = shelf.live.iter().position(|byte| *byte == DEAD);
            let (answer, _) = changes::take(&with_newcomer(&mut chance, &shelf, Stock::Ties));
            let told = (answer.code, answer.number as usize);
            assert_eq!(
                told,
                dead.map_or((16, 0), |number| (0, number)),
                "{shelf:?}"
            );
            for number in 0..n as u32 + 2 {
                let call = shelf.with_number(number);
                let (code, after) = changes::withdraw(&call);
                assert_eq!(code, if call.is_live(number) { 0 } else { 17 }, "{call:?}");
                calls::is_shelf(&after);
            }
        }
    }
}

/// Of a row of two points, 0 and 10, with the order 0 1: where number 1 is withdrawn the order is still the tree, where number 0 is it is not,
/// and once the withdrawn point is back under its number it is again.
#[test]
fn row_of_two() {
    let mut chance = Chance::new(cases::SEED);
    let mut row = calls::shelf(&Lent::new(&mut chance, 1, vec![0, 10]));
    row.order = vec![0, 1];
    for (number, still, listed) in [(1, true, 0), (0, false, 9)] {
        let (code, after) = changes::withdraw(&row.with_number(number));
        assert_eq!((code, calls::is_shelf(&after)), (0, still));
        assert_eq!(calls::list(&after).0.code, listed);
        let point = row.point_of(number).to_vec();
        let (answer, back) = changes::take(&Lent { point, ..after });
        assert_eq!((answer.code, answer.number), (0, number));
        assert!(calls::is_shelf(&back));
    }
}
