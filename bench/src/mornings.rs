//! Several regions in one call, beside as many list calls and as many searches of CGAL's tree.

use crate::clock::{best_of, Contender};
use crate::library;
use crate::lists::Shelf;
use crate::measured::{Asked, Call, Measured, CHECK, REGIONS};
use crate::region::{Joined, Region};
use crate::walk::root_rows;

/// Makes a list for each region in its own places of the lists, one region after the other.
fn each<T>(regions: &[Region], lists: &mut [u32], mut list: impl FnMut(&Region, &mut [u32]) -> T) {
    let places = lists.chunks_exact_mut(lists.len() / regions.len());
    for (region, places) in regions.iter().zip(places) {
        std::hint::black_box(list(region, places));
    }
}

/// The counts of all regions, inside, outside and visits of each. It stops where the library refuses, where the list call gives a region
/// something else, or where CGAL does not agree.
fn agreed_counts(shelf: &Shelf, regions: &[Region], joined: &Joined) -> Vec<u32> {
    let (stock, order) = (shelf.stock, shelf.order);
    let mut lists = vec![u32::MAX; regions.len() * stock.n];
    let mut counts = vec![u32::MAX; regions.len() * 3];
    let code = library::list_regions(stock, order, joined, &mut lists, &mut counts);
    assert_eq!(code, 0, "the call for several regions");
    let mut marks = vec![0; stock.n];
    let mut other = vec![u32::MAX; stock.n];
    let lists = lists.chunks_exact(stock.n).zip(counts.chunks_exact(3));
    for (region, (list, three)) in regions.iter().zip(lists) {
        let inside = three[0] as usize;
        let answer = library::list(stock, order, region, &mut other);
        assert_eq!([answer.inside, answer.outside, answer.visits], three);
        assert!(other == list, "the lists of the list call");
        let found = shelf.tree.list_both(order, region, &mut marks, &mut other);
        assert!(found == inside && other == list, "both lists by CGAL");
        let found = shelf.tree.list(region, &mut other);
        let numbers = &mut other[..found];
        numbers.sort_unstable();
        let mut set = list[..inside].to_vec();
        set.sort_unstable();
        assert!(numbers == set, "the set inside of CGAL");
    }
    counts
}

/// A region, and how many numbers inside and how many visits all of them have on the average.
fn on_the_average(region: &Region, counts: &[u32]) -> Asked {
    let mean = |which: usize| counts.iter().skip(which).step_by(3).sum::<u32>() / REGIONS as u32;
    Asked {
        kind: region.kind,
        share: region.share,
        h: region.h,
        inside: mean(0),
        visits: mean(2),
    }
}

/// Measures the call for several regions of one shelf, and one list call for each; the check and the root box by hand after one, which the
/// one call has once and each of the others again; and CGAL, once for the inside alone and once for both lists. Every region has its own places.
pub fn measure(shelf: &Shelf, regions: &[Region], rounds: usize) -> Measured {
    let joined = Joined::new(regions);
    let counted = agreed_counts(shelf, regions, &joined);
    let (stock, order, tree) = (shelf.stock, shelf.order, &shelf.tree);
    let mut buffers: [Vec<u32>; 4] = std::array::from_fn(|_| vec![0; REGIONS * stock.n]);
    let [a, b, c, d] = &mut buffers;
    let (mut counts, mut marks) = (vec![0; REGIONS * 3], vec![0; stock.n]);
    let check = || library::check(stock, order);
    let contenders = vec![
        Contender::new("regions", || {
            library::list_regions(stock, order, &joined, a, &mut counts)
        }),
        Contender::new("64 list calls", || {
            each(regions, b, |region, list| {
                library::list(stock, order, region, list)
            })
        }),
        Contender::new(CHECK, check),
        Contender::after("root box by hand", check, || root_rows(stock)),
        Contender::new("CGAL, inside alone", || {
            each(regions, c, |region, list| tree.list(region, list))
        }),
        Contender::new("CGAL, both lists", || {
            each(regions, d, |region, list| {
                tree.list_both(order, region, &mut marks, list)
            })
        }),
    ];
    Measured {
        call: Call::Regions,
        points: stock.kind,
        k: stock.k,
        n: stock.n,
        asked: Some(on_the_average(&regions[0], &counted)),
        times: best_of(rounds, contenders),
    }
}
