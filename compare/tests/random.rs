//! Random shelves with points and regions of every kind, whose faces are all closed.

use compare::agree;
use compare::bounds::Nearness;
use compare::calls;
use compare::cases;
use compare::chance::Chance;
use compare::damage;
use compare::lent::Lent;
use compare::shelves;
use compare::stock::Stock;

/// How many shelves there are of each kind of points.
const SHELVES: usize = 600;

/// Compares every call on shelves of this kind of points.
fn shelves(name: &'static str, stock: Stock) {
    let mut nearness = Nearness::default();
    cases::make(name, SHELVES, |chance, case| {
        let shelf = shelves::of(chance, stock, 1 + case % 4);
        for _ in 0..3 {
            one_region(chance, &shelf, &mut nearness);
        }
        one_damage(chance, &shelf);
    });
    println!("{name}: {nearness}");
}

/// Compares list and the one-point test on one region, and holds the visits against their bounds.
fn one_region(chance: &mut Chance, shelf: &Lent, nearness: &mut Nearness) {
    let call = shelves::region(chance, shelf);
    let (answer, list) = calls::list(&call);
    assert_eq!(answer.code, 0);
    nearness.look(&call, answer.visits);
    agree::hold(chance, &call, answer.inside, &list);
}

/// Compares arrange and list on an order that is damaged in some way.
fn one_damage(chance: &mut Chance, shelf: &Lent) {
    if shelf.n < 2 {
        return;
    }
    let (_, make) = chance.one_of(&damage::ALL);
    let mut order = shelf.order[..shelf.n].to_vec();
    make(chance, &mut order);
    let damaged = shelf.with_order(&order);
    let code = if calls::is_shelf(&damaged) { 0 } else { 9 };
    assert_eq!(calls::list(&damaged).0.code, code);
}

#[test]
fn spread() {
    shelves("spread", Stock::Spread);
}

#[test]
fn clustered() {
    shelves("clustered", Stock::Clustered);
}

#[test]
fn many_ties() {
    shelves("many ties", Stock::Ties);
}

#[test]
fn all_equal() {
    shelves("all equal", Stock::Equal);
}

#[test]
fn grey() {
    shelves("grey", Stock::Grey);
}

#[test]
fn extremes() {
    shelves("extremes", Stock::Extremes);
}

#[test]
fn teeth() {
    shelves("teeth", Stock::Teeth);
}
