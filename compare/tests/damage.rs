//! Orders damaged in every way: list, screen and explain refuse them with 9 and write nothing; arrange says that they were not the tree, and
//! makes them it.

use compare::calls;
use compare::cases;
use compare::chance::Chance;
use compare::changes;
use compare::damage;
use compare::faces;
use compare::lent::Lent;
use compare::seen::Seen;
use compare::shelves;
use compare::stock::Stock;
use second::live::{DEAD, LIVE};

/// A right shelf of 2 to 200 points with some faces, in this dimension.
fn shelf(chance: &mut Chance, k: usize) -> Lent {
    let n = 2 + chance.below(199);
    let stock = chance.one_of(&Stock::ALL);
    let points = stock.points(chance, k, n);
    let h = chance.below(4);
    let (normals, offsets) = faces::region(chance, k, &points, h);
    calls::shelf(&Lent::new(chance, k, points)).with_faces(normals, offsets)
}

/// Compares arrange, list, screen and explain on a damaged order, and says whether it was refused. Arranged, it is as before the damage.
fn refused(shelf: &Lent, order: &[u32]) -> bool {
    let damaged = shelf.with_order(order);
    let same = order == shelf.slots();
    let (answer, after) = calls::arrange(&damaged);
    let told = (answer.code, answer.already);
    assert_eq!(told, (0, u32::from(same)), "{damaged:?}");
    assert_eq!(after, shelf.order, "{damaged:?}");
    let code = if same { 0 } else { 9 };
    assert_eq!(calls::list(&damaged).0.code, code);
    assert_eq!(calls::screen(&damaged).code, code);
    assert_eq!(calls::explain(&damaged).code, code);
    code == 9
}

/// The ways of damage that go by the points.
const BY_THE_POINTS: [&str; 2] = ["ties the other way", "dimensions the other way"];

/// Every way of damage is refused, but where it leaves the order as it was.
#[test]
fn every_way() {
    let names = damage::ALL.iter().map(|(name, _)| *name);
    let mut seen = Seen::new(names.chain(BY_THE_POINTS));
    cases::make("damaged orders", 480, |chance, case| {
        let shelf = shelf(chance, 1 + case % 4);
        let all = damage::ALL.map(|(name, make)| {
            let mut order = shelf.slots().to_vec();
            make(chance, &mut order);
            (name, order)
        });
        let (k, points) = (shelf.k, &shelf.points);
        let turned = [
            damage::ties_the_other_way(k, points),
            damage::dimensions_the_other_way(k, points),
        ];
        let by_the_points = BY_THE_POINTS.into_iter().zip(turned);
        for (name, order) in all.into_iter().chain(by_the_points) {
            if refused(&shelf, &order) {
                seen.count(name);
            }
        }
    });
    seen.enough("damaged orders");
}

/// A right shelf of 2 to 200 points among dead numbers with some faces, in this dimension.
fn shelf_with_dead(chance: &mut Chance, k: usize) -> Lent {
    let right = shelf(chance, k);
    let mut live = vec![LIVE; right.n];
    for _ in 0..1 + chance.below(right.n) {
        live.insert(chance.below(live.len() + 1), DEAD);
    }
    let shelf = calls::shelf(&shelves::among_dead(chance, &right, live));
    let lowest = shelf.live_numbers()[0];
    shelf.with_number(lowest)
}

/// The ways of damage that live bytes bring.
const BY_THE_DEAD: [&str; 7] = [
    "a dead number",
    "a dead number in the last slot",
    "the number n of all",
    "numbers as if none were dead",
    "the live numbers in turn",
    "ties the other way",
    "dimensions the other way",
];

/// An order damaged in each of these ways.
fn by_the_dead(chance: &mut Chance, shelf: &Lent) -> [Vec<u32>; 7] {
    let dead: Vec<u32> = (0..shelf.n as u32).filter(|p| !shelf.is_live(*p)).collect();
    let slots = shelf.slots().to_vec();
    let (slot, last) = (chance.below(slots.len()), slots.len() - 1);
    let with = |slot: usize, number: u32| {
        let mut changed = slots.clone();
        changed[slot] = number;
        changed
    };
    let names = shelf.live_numbers();
    let named = |order: Vec<u32>| order.iter().map(|p| names[*p as usize]).collect();
    let (k, points) = (shelf.k, shelf.live_points());
    [
        with(slot, chance.one_of(&dead)),
        with(last, dead[0]),
        with(slot, shelf.n as u32),
        (0..=last as u32).collect(),
        names.clone(),
        named(damage::ties_the_other_way(k, &points)),
        named(damage::dimensions_the_other_way(k, &points)),
    ]
}

/// Every way of damage to the order of a shelf with dead numbers is refused, but where it leaves the slots as they were.
#[test]
fn beside_dead_numbers() {
    let names = damage::ALL.iter().map(|(name, _)| *name);
    let mut seen = Seen::new(names.chain(BY_THE_DEAD));
    cases::make("damaged orders beside dead numbers", 240, |chance, case| {
        let shelf = shelf_with_dead(chance, 1 + case % 4);
        let all = damage::ALL.map(|(name, make)| {
            let mut order = shelf.slots().to_vec();
            make(chance, &mut order);
            (name, order)
        });
        let by_the_dead = BY_THE_DEAD.into_iter().zip(by_the_dead(chance, &shelf));
        for (name, order) in all.into_iter().chain(by_the_dead) {
            if refused(&shelf, &order) {
                seen.count(name);
            }
        }
    });
    seen.enough("damaged orders beside dead numbers");
}

/// The order of before is still the tree or not as the points that are live now say: whichever number of a shelf is withdrawn, and after any
/// other was taken.
#[test]
fn orders_of_before() {
    let names = [
        "withdrawn: the tree",
        "withdrawn: no longer",
        "taken: the tree",
        "taken: no longer",
    ];
    let mut seen = Seen::new(names);
    cases::make("orders of before", 400, |chance, case| {
        let (k, stock) = (1 + case % 4, chance.one_of(&Stock::ALL));
        let shelf = shelves::with_dead(chance, stock, k, 12);
        let last_slot = shelf.slots().last().copied();
        for number in shelf.live_numbers() {
            let (_, after) = changes::withdraw(&shelf.with_number(number));
            let still = calls::is_shelf(&after);
            assert_eq!(calls::explain(&after).code == 9, !still, "{after:?}");
            assert!(!still || Some(number) == last_slot, "{after:?}");
            assert!(still || k > 1 || Some(number) != last_slot, "{after:?}");
            seen.count(if still { names[0] } else { names[1] });
            let again = Lent {
                point: shelf.point_of(number).to_vec(),
                ..after
            };
            let (answer, back) = changes::take(&again);
            let same = answer.number == number;
            let still = calls::is_shelf(&back);
            assert!(!same || still, "{back:?}");
            seen.count(if still { names[2] } else { names[3] });
        }
    });
    seen.enough("orders of before");
}

/// Of all contents of a small order exactly one already is the tree, which all others become; the calls that need the tree accept that one
/// alone. A wrong one is refused before a number that no point has.
#[test]
fn all_contents() {
    let mut seen = Seen::new(["the tree", "any other"]);
    cases::make("all contents of small orders", 160, |chance, case| {
        let (k, n, some_dead) = (1 + case % 4, case / 4 % 5, case / 20 % 2 > 0);
        let shelf = if some_dead {
            shelves::with_dead(chance, Stock::Ties, k, n)
        } else {
            let points = (0..k * n).map(|_| chance.between(0, 2) as i32).collect();
            calls::shelf(&Lent::new(chance, k, points))
        };
        let trees = contents(shelf.v(), shelf.n).into_iter().filter(|order| {
            let call = shelf.with_order(order);
            let same = calls::is_shelf(&call);
            assert_eq!(calls::arrange(&call).1, shelf.order);
            let no_point = call.with_number(call.n as u32);
            let expected = if same { 17 } else { 9 };
            assert_eq!(calls::explain(&no_point).code, expected);
            seen.count(if same { "the tree" } else { "any other" });
            same
        });
        assert_eq!(trees.count(), 1);
    });
    seen.enough("all contents of small orders");
}

/// Every row of so many numbers from 0 to `most`.
fn contents(places: usize, most: usize) -> Vec<Vec<u32>> {
    let mut rows = vec![Vec::new()];
    for _ in 0..places {
        let longer = |row: &Vec<u32>| {
            let row = row.clone();
            (0..=most as u32).map(move |number| [&row[..], &[number]].concat())
        };
        rows = rows.iter().flat_map(longer).collect();
    }
    rows
}
