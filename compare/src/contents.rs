//! What an order may hold before it is arranged.

use crate::chance::Chance;
use crate::damage;
use crate::lent::Lent;
use second::live::DEAD;

/// First contents of the slots: their name, and how they are made of a shelf.
pub type Contents = (&'static str, fn(&mut Chance, &Lent) -> Vec<u32>);

/// Every kind. On few points it may be the tree.
pub const ALL: [Contents; 9] = [
    ("the tree", |_, shelf| shelf.slots().to_vec()),
    ("any numbers", |chance, shelf| chance.contents(shelf.v())),
    ("the live numbers in any order", shuffled),
    ("another number in the first slot", |chance, shelf| {
        with_other(chance, shelf, 0)
    }),
    ("another number in the root's slot", |chance, shelf| {
        with_other(chance, shelf, shelf.v() / 2)
    }),
    ("another number in the last slot", |chance, shelf| {
        with_other(chance, shelf, shelf.v().saturating_sub(1))
    }),
    ("the last two changed over", |_, shelf| {
        let mut slots = shelf.slots().to_vec();
        if let [.., one, other] = &mut slots[..] {
            std::mem::swap(one, other);
        }
        slots
    }),
    ("the tree damaged", |chance, shelf| {
        let (mut slots, (_, make)) = (shelf.slots().to_vec(), chance.one_of(&damage::ALL));
        if slots.len() > 1 {
            make(chance, &mut slots);
        }
        slots
    }),
    ("the tree of before one was taken", before_one),
];

/// The live numbers in any order.
fn shuffled(chance: &mut Chance, shelf: &Lent) -> Vec<u32> {
    let mut numbers = shelf.live_numbers();
    for place in (1..numbers.len()).rev() {
        numbers.swap(place, chance.below(place + 1));
    }
    numbers
}

/// The tree with another number in one slot, if there is one: any of all, be it live or dead, n, or far beyond.
fn with_other(chance: &mut Chance, shelf: &Lent, slot: usize) -> Vec<u32> {
    let mut slots = shelf.slots().to_vec();
    let any = chance.below(shelf.n + 1) as u32;
    if let Some(number) = slots.get_mut(slot) {
        *number = chance.one_of(&[any, shelf.n as u32, *number + 65_536, u32::MAX]);
    }
    slots
}

/// The tree of all live numbers but one, and in the last slot anything.
fn before_one(chance: &mut Chance, shelf: &Lent) -> Vec<u32> {
    if shelf.v() == 0 {
        return Vec::new();
    }
    let mut before = shelf.clone();
    before.live[chance.one_of(&shelf.live_numbers()) as usize] = DEAD;
    let mut order = chance.contents(shelf.v());
    let answer = second::arrange(shelf.k, shelf.n, &shelf.points, &before.live, &mut order);
    assert_eq!(answer.code, 0, "{shelf:?}");
    order
}
