//! A shelf with dead numbers beside the shelf of its live points alone, which must be answered alike but for the names of the numbers.

use crate::calls::{self, same};
use crate::lent::Lent;
use crate::live;

/// The live points of an accepted call alone, all live: the lowest live number is 0 there, the next one 1, and so on.
fn alone(lent: &Lent, names: &[u32]) -> Lent {
    let name = |number: &u32| names.binary_search(number).expect("a live number") as u32;
    let mut alone = lent.clone();
    alone.n = names.len();
    alone.points = lent.live_points();
    alone.live = live::all(names.len());
    alone.order = lent.slots().iter().map(name).collect();
    alone
}

/// Asks that the library arranges the live points alone as it arranged them among dead numbers, and lists them with the same counts, each number
/// under its own name.
pub fn hold(lent: &Lent) {
    let names = lent.live_numbers();
    let alone = alone(lent, &names);
    let named = |numbers: &[u32]| -> Vec<u32> {
        let held = numbers[..names.len()].iter();
        held.map(|number| names[*number as usize]).collect()
    };
    let (answer, order) = calls::arrange(&alone);
    let told = (answer.code, answer.already);
    assert_eq!(told, (0, 1), "arrange of the live points of {lent:?}");
    same("the order", lent, lent.slots(), &named(&order));
    let (whole, list) = calls::list(lent);
    let (answer, places) = calls::list(&alone);
    assert_eq!(answer, whole, "list of the live points of {lent:?}");
    same("the list", lent, &list[..names.len()], &named(&places));
}
