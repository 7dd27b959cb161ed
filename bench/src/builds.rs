//! The arrange call, on an order that is not the tree and on the tree, beside other builders.

use crate::builder;
use crate::clock::{best_of, Contender};
use crate::cpp::{CgalPoints, CgalTree, Nanoflann};
use crate::library;
use crate::measured::{Call, Measured, CHECK};
use crate::stock::Stock;
use crate::wrong_orders::arranging;

/// How many points a leaf of nanoflann's index holds at most, as it is by itself.
const LEAF: usize = 10;

/// The tree of the live numbers, as the library arranges it. It stops where the library refuses, or does not find it to be the tree already.
pub fn arranged(stock: &Stock) -> Vec<u32> {
    let mut order = vec![u32::MAX; stock.live_numbers().len()];
    for already in [0, 1] {
        let answer = library::arrange(stock, &mut order);
        let told = (answer.code, answer.already);
        assert_eq!(told, (0, already), "the arrange call");
    }
    order
}

/// The order of a shelf that is all live. It stops where the library refuses, or where a builder does not agree.
pub fn agreed_order(stock: &Stock) -> Vec<u32> {
    let order = arranged(stock);
    let mut other = vec![0; stock.n];
    builder::build(stock, &mut other);
    assert!(order == other, "{}: the Rust builder's order", stock.kind);
    builder::build_packed(stock, &mut other);
    assert!(order == other, "{}: the packed order", stock.kind);
    nanoflann_agrees(stock);
    order
}

/// Stops where nanoflann's index does not find just the points that are near to some of them.
fn nanoflann_agrees(stock: &Stock) {
    let index = Nanoflann::build(stock, LEAF);
    for number in [0, stock.n / 2, stock.n - 1] {
        let centre = &stock.points[number * stock.k..(number + 1) * stock.k];
        let squared = 3_000 * 3_000;
        let distance = |point: &[i32]| -> i64 {
            let steps = point.iter().zip(centre);
            steps.map(|(&x, &y)| i64::from(x - y).pow(2)).sum()
        };
        let points = stock.points.chunks(stock.k);
        let near = points.filter(|point| distance(point) < squared).count();
        assert_eq!(index.near(centre, squared), near, "{}", stock.kind);
    }
}

/// Measures every builder, and the arrange call on the tree too, on one shelf with its order.
pub fn measure(stock: &Stock, order: &[u32], rounds: usize) -> Measured {
    let points = CgalPoints::new(stock);
    let mut orders: [Vec<u32>; 2] = std::array::from_fn(|_| vec![0; stock.n]);
    let [first, second] = &mut orders;
    let contenders = vec![
        arranging("arrange", stock, vec![0; stock.n]),
        Contender::new(CHECK, || library::check(stock, order)),
        Contender::new("nanoflann", || Nanoflann::build(stock, LEAF)),
        Contender::new("CGAL", || CgalTree::build(&points)),
        Contender::new("Rust builder", || builder::build(stock, first)),
        Contender::new("Rust builder, packed", || {
            builder::build_packed(stock, second)
        }),
    ];
    Measured {
        call: Call::Arrange,
        points: stock.kind,
        k: stock.k,
        n: stock.n,
        asked: None,
        times: best_of(rounds, contenders),
    }
}
