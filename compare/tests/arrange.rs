//! Arranging: any first contents and every damaged order of small shelves become the tree, one that is it already is left as it is, and
//! until then the calls that need the tree refuse the order.

use compare::calls;
use compare::cases;
use compare::chance::Chance;
use compare::contents;
use compare::lent::Lent;
use compare::seen::{Case, Seen};
use compare::several::{self, Several};
use compare::shelves;
use compare::stock::Stock;
use std::slice;

/// An order before it was arranged, its shelf, and what the answer said.
struct Arranged {
    call: Lent,
    shelf: Lent,
    already: bool,
}

/// Every case.
const CASES: [Case<Arranged>; 20] = [
    ("already", |it| it.already && it.v() > 1),
    ("already, no numbers", |it| it.already && it.call.n == 0),
    ("already, none live", |it| {
        it.already && it.v() == 0 && it.call.n > 0
    }),
    ("already, one live", |it| it.already && it.v() == 1),
    ("already, all live", |it| {
        it.already && it.v() > 1 && it.v() == it.call.n
    }),
    ("already, some dead", |it| {
        it.already && it.v() > 1 && it.v() < it.call.n
    }),
    ("already, places behind", |it| {
        it.already && it.v() > 1 && it.behind() > 0
    }),
    ("already, no place behind", |it| {
        it.already && it.v() > 1 && it.behind() == 0
    }),
    ("arranged, one live", |it| !it.already && it.v() == 1),
    ("arranged, all live", |it| {
        !it.already && it.v() == it.call.n
    }),
    ("arranged, some dead", |it| {
        !it.already && it.v() < it.call.n
    }),
    ("arranged, places behind", |it| {
        !it.already && it.behind() > 0
    }),
    ("arranged, no place behind", |it| {
        !it.already && it.behind() == 0
    }),
    ("only the first slot was wrong", |it| it.wrong() == [0]),
    ("only the root's slot was wrong", |it| {
        it.wrong() == [it.v() / 2]
    }),
    ("only the last slot was wrong", |it| {
        it.wrong() == [it.v().wrapping_sub(1)]
    }),
    ("two slots were wrong", |it| it.wrong().len() == 2),
    ("every slot was wrong", |it| {
        it.v() > 1 && it.wrong().len() == it.v()
    }),
    ("each live number stood there once", |it| {
        let mut numbers = it.call.slots().to_vec();
        numbers.sort_unstable();
        !it.already && numbers == it.call.live_numbers()
    }),
    ("a dead number stood there", |it| {
        let dead = |number: &u32| (*number as usize) < it.call.n && !it.call.is_live(*number);
        it.call.slots().iter().any(dead)
    }),
];

impl Arranged {
    /// Compares arrange on a shelf with these first contents, which must be its tree afterwards, with the places behind kept.
    fn new(shelf: &Lent, contents: &[u32]) -> Arranged {
        let call = shelf.with_order(contents);
        let (answer, after) = calls::arrange(&call);
        assert_eq!(answer.code, 0, "{call:?}");
        assert_eq!(after, shelf.order, "{call:?}");
        let already = answer.already == 1;
        assert_eq!(already, contents == shelf.slots(), "{call:?}");
        Arranged {
            call,
            shelf: shelf.clone(),
            already,
        }
    }

    /// v: how many numbers are live.
    fn v(&self) -> usize {
        self.call.v()
    }

    /// How many places there are behind the last slot.
    fn behind(&self) -> usize {
        self.call.order.len() - self.v()
    }

    /// The slots that held another number than the tree's.
    fn wrong(&self) -> Vec<usize> {
        let (before, tree) = (self.call.slots(), self.shelf.slots());
        let wrong = |slot: &usize| before[*slot] != tree[*slot];
        (0..self.v()).filter(wrong).collect()
    }

    /// Asks that the calls that need the tree refuse the order with 9 unless it was the tree already, and write nothing.
    fn listed(&self, chance: &mut Chance) {
        let code = if self.already { 0 } else { 9 };
        let call = &self.call;
        assert_eq!(calls::list(call).0.code, code, "{call:?}");
        assert_eq!(calls::screen(call).code, code, "{call:?}");
        let several = Several::new(chance, call, slice::from_ref(call));
        assert_eq!(several::list(&several).0, code, "{call:?}");
        let lowest = call.live_numbers().first().copied();
        let explained = calls::explain(&call.with_number(lowest.unwrap_or(0))).code;
        let none = if self.already { 17 } else { 9 };
        assert_eq!(explained, lowest.map_or(none, |_| code), "{call:?}");
    }
}

/// Compares arrange with first contents of every kind on random shelves, and asks that every case comes up.
#[test]
fn first_contents() {
    let mut seen = Seen::of(&CASES);
    let mut kinds = Seen::new(contents::ALL.map(|(name, _)| name));
    cases::make("first contents", 2_800, |chance, case| {
        let (k, stock) = (1 + case % 4, Stock::ALL[case / 4 % Stock::ALL.len()]);
        let most = chance.one_of(&[1, 3, 12, 80, 400]);
        let shelf = shelves::with_dead(chance, stock, k, most);
        for (name, make) in contents::ALL {
            let arranged = Arranged::new(&shelf, &make(chance, &shelf));
            seen.look(&CASES, &arranged);
            kinds.count(name);
        }
    });
    seen.enough("first contents");
    kinds.enough("kinds of first contents");
}

/// Every order that differs from the tree in one slot, or in two that are changed over.
fn damaged_orders(shelf: &Lent) -> Vec<Vec<u32>> {
    let (tree, n) = (shelf.slots().to_vec(), shelf.n as u32);
    let mut all = Vec::new();
    for slot in 0..tree.len() {
        for number in (0..n + 2).chain([tree[slot] + 65_536, tree[slot] | 1 << 31, u32::MAX]) {
            let mut changed = tree.clone();
            changed[slot] = number;
            all.push(changed);
        }
        for other in 0..slot {
            let mut changed = tree.clone();
            changed.swap(slot, other);
            all.push(changed);
        }
    }
    all
}

/// Compares arrange and the calls that need the tree on every such order of small shelves.
#[test]
fn every_damaged_order() {
    let mut seen = Seen::new(["already", "one slot", "two slots"]);
    cases::make("every damaged order", 280, |chance, case| {
        let (k, stock) = (1 + case % 4, Stock::ALL[case / 4 % Stock::ALL.len()]);
        let shelf = shelves::with_dead(chance, stock, k, 9);
        let shelf = shelves::marked_region(chance, &shelf);
        for order in damaged_orders(&shelf) {
            let arranged = Arranged::new(&shelf, &order);
            arranged.listed(chance);
            seen.count(["already", "one slot", "two slots"][arranged.wrong().len()]);
        }
    });
    seen.enough("every damaged order");
}

/// The six points of shelf A: their order from nothing, and once more what it is already; without points 2 and 5; and these two back.
#[test]
fn shelf_a() {
    let points = vec![1, 5, 4, 2, 4, 8, 7, 1, 6, 6, 2, 2];
    let mut a = Lent::new(&mut Chance::new(cases::SEED), 2, points);
    for (live, order, already) in [
        ([1, 1, 1, 1, 1, 1], &[1, 5, 0, 2, 3, 4][..], 0),
        ([1, 1, 1, 1, 1, 1], &[1, 5, 0, 2, 3, 4], 1),
        ([1, 1, 0, 1, 1, 0], &[1, 0, 4, 3], 0),
        ([1, 1, 0, 1, 1, 0], &[1, 0, 4, 3], 1),
        ([0, 1, 0, 0, 0, 0], &[1], 1),
        ([0, 0, 0, 0, 0, 0], &[], 1),
        ([1, 1, 1, 1, 1, 1], &[1, 5, 0, 2, 3, 4], 0),
    ] {
        a = a.with_live(live.to_vec());
        let (answer, after) = calls::arrange(&a);
        assert_eq!((answer.code, answer.already), (0, already));
        assert_eq!(&after[..order.len()], order);
        a = a.with_order(&after);
    }
}
