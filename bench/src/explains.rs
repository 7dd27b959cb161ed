//! The explain call, on the average over many numbers, beside its own least work and the list call.

use crate::clock::{best_of, Contender};
use crate::library::{self, Listing};
use crate::measured::{Asked, Call, Measured, CHECK};
use crate::numbers::Numbers;
use crate::region::{margin, Region};
use crate::stock::Stock;
use crate::walk::root_rows;

/// How many numbers are explained.
const NUMBERS: usize = 1_000;

/// The best time of each contender, in microseconds.
type Times = Vec<(&'static str, f64)>;

/// Numbers of a shelf, which the seed decides.
fn drawn(n: usize, seed: u64) -> Vec<u32> {
    let mut numbers = Numbers::new(seed ^ NUMBERS as u64);
    (0..NUMBERS).map(|_| numbers.below(n) as u32).collect()
}

/// The library's listing. It stops where the library refuses, where a reason says inside and the list does not, or where the margin is not that
/// of the point to the face that is named.
fn agreed_listing(stock: &Stock, order: &[u32], region: &Region, numbers: &[u32]) -> Listing {
    let mut list = vec![u32::MAX; stock.n];
    let listing = library::list(stock, order, region, &mut list);
    let inside = &list[..listing.inside as usize];
    for &number in numbers {
        let answer = library::explain(stock, order, region, number);
        assert_eq!((listing.code, answer.code), (0, 0), "list and explain");
        let told = answer.reason <= 2;
        assert_eq!(told, inside.contains(&number), "inside: {number}");
        let point = &stock.points[number as usize * stock.k..][..stock.k];
        let expected = match told {
            true => 0,
            false => margin(region, answer.face.into(), point),
        };
        assert_eq!(answer.margin, expected, "the margin of {number}");
    }
    listing
}

/// The mean of several times of the same contenders.
fn mean(all: &[Times]) -> Times {
    let of = |which: usize| all.iter().map(|times| times[which].1).sum::<f64>();
    let names = all[0].iter().map(|(name, _)| *name).enumerate();
    names
        .map(|(which, name)| (name, of(which) / all.len() as f64))
        .collect()
}

/// Measures the explain call for each of the numbers, and every time the list and the check as well and the root box by hand, which follows
/// a check, as it does within the call. The mean of each counts.
pub fn measure(
    stock: &Stock,
    order: &[u32],
    region: &Region,
    seed: u64,
    rounds: usize,
) -> Measured {
    let numbers = drawn(stock.n, seed);
    let listing = agreed_listing(stock, order, region, &numbers);
    let mut list = vec![0; stock.n];
    let check = || library::check(stock, order);
    let of_number = |&number: &u32| {
        let contenders = vec![
            Contender::new("explain", || library::explain(stock, order, region, number)),
            Contender::new("list", || library::list(stock, order, region, &mut list)),
            Contender::new(CHECK, check),
            Contender::after("root box by hand", check, || root_rows(stock)),
        ];
        best_of(rounds, contenders)
    };
    let all: Vec<Times> = numbers.iter().map(of_number).collect();
    let asked = Asked {
        kind: region.kind,
        share: region.share,
        h: region.h,
        inside: listing.inside,
        visits: listing.visits,
    };
    Measured {
        call: Call::Explain,
        points: stock.kind,
        k: stock.k,
        n: stock.n,
        asked: Some(asked),
        times: mean(&all),
    }
}
