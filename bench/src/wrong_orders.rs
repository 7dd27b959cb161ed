//! The arrange call on orders that are not the tree.

use crate::builder;
use crate::clock::{best_of, Contender};
use crate::library;
use crate::measured::{Call, Measured, CHECK};
use crate::numbers::Numbers;
use crate::stock::Stock;
use std::cell::RefCell;
use std::rc::Rc;

/// The arrange call on an order that holds these numbers, which are put back before each call.
pub fn arranging<'a>(name: &'static str, stock: &'a Stock, first: Vec<u32>) -> Contender<'a> {
    let order = Rc::new(RefCell::new(first.clone()));
    let again = Rc::clone(&order);
    let put_back = move || again.borrow_mut().copy_from_slice(&first);
    let arrange = move || library::arrange(stock, &mut order.borrow_mut());
    Contender::after(name, put_back, arrange)
}

/// The tree with its last two numbers changed over.
fn one_swap(order: &[u32]) -> Vec<u32> {
    let mut swapped = order.to_vec();
    swapped.swap(order.len() - 2, order.len() - 1);
    swapped
}

/// All numbers in an order by the seed.
fn random_order(n: usize, numbers: &mut Numbers) -> Vec<u32> {
    let mut order: Vec<u32> = (0..n as u32).collect();
    for place in (1..n).rev() {
        order.swap(place, numbers.below(place + 1));
    }
    order
}

/// The tree of before one picture was taken, a number by the seed, with that number behind it.
fn of_yesterday(stock: &Stock, numbers: &mut Numbers) -> Vec<u32> {
    let taken = numbers.below(stock.n);
    let mut yesterday = stock.clone();
    yesterday.live[taken] = 0;
    let mut order = builder::build_live(&yesterday);
    order.push(taken as u32);
    order
}

/// Stops where the library does not find an order wrong, or does not make it the tree.
fn agree(stock: &Stock, wrong: &[u32], order: &[u32]) {
    let mut other = wrong.to_vec();
    let answer = library::arrange(stock, &mut other);
    let told = (answer.code, answer.already);
    assert_eq!(told, (0, 0), "the arrange call on a wrong order");
    assert!(other == order, "the tree of a wrong order");
}

/// Measures the arrange call on a shelf: on the tree, and on each wrong order.
pub fn measure(stock: &Stock, order: &[u32], seed: u64, rounds: usize) -> Measured {
    let mut numbers = Numbers::new(seed);
    let wrong = [
        ("arrange", vec![0; stock.n]),
        ("arrange, one swap at the end", one_swap(order)),
        (
            "arrange, a random order",
            random_order(stock.n, &mut numbers),
        ),
        (
            "arrange, an order of yesterday",
            of_yesterday(stock, &mut numbers),
        ),
    ];
    let tree = Contender::new(CHECK, || library::check(stock, order));
    let mut contenders = vec![tree];
    for (name, first) in wrong {
        agree(stock, &first, order);
        contenders.push(arranging(name, stock, first));
    }
    Measured {
        call: Call::WrongOrders,
        points: stock.kind,
        k: stock.k,
        n: stock.n,
        asked: None,
        times: best_of(rounds, contenders),
    }
}
