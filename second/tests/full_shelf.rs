//! Full shelves: 65,535 live points and 32 faces in each dimension.

use second::{arrange, list, list_tight, s, scan, screen, summarise, Listing};
use std::time::Instant;

const N: usize = 65_535;

/// Coordinates over the whole range, from a simple multiplying row.
fn coordinates(count: usize) -> Vec<i32> {
    let mut state = 1u64;
    let next = |_| {
        state = state.wrapping_mul(6_364_136_223_846_793_005) + 1_442_695;
        (state >> 48) as i32 - 32_768
    };
    (0..count).map(next).collect()
}

/// Arranges twice, lists, screens, lists by tight boxes and scans a full shelf with
/// 32 square faces, closed and open by turns, and shows the time.
#[test]
fn full_shelves() {
    for k in 1..=4 {
        let points = coordinates(k * N);
        let live = vec![1; N];
        let mut order = vec![0; N];
        let mut places = vec![0; N];
        let start = Instant::now();
        assert_eq!(arrange(k, N, &points, &live, &mut order).code, 0);
        let arranged = start.elapsed();
        let before = order.clone();
        assert_eq!(arrange(k, N, &points, &live, &mut order).already, 1);
        assert_eq!(order, before);
        let normals: Vec<i32> = (0..32 * k)
            .map(|i| if i % k == (i / k) % k { 32_767 } else { 0 })
            .collect();
        let offsets: Vec<i64> = (0..32).map(|face| -32_767 * (20_000 + face)).collect();
        let marks: Vec<u8> = (0..32).map(|face| face % 2).collect();
        let start = Instant::now();
        let answer = list(
            k,
            N,
            32,
            &points,
            &live,
            &order,
            &normals,
            &offsets,
            &marks,
            &mut places,
        );
        println!(
            "k {k}: arrange {arranged:?}, list {:?}, {answer:?}",
            start.elapsed()
        );
        assert_eq!(answer.code, 0);
        assert_eq!(answer.inside + answer.outside, 65_535);
        assert!(u64::from(answer.visits) <= 32 * s(N, k));
        let first = screen(k, N, 32, &points, &live, &order, &normals, &offsets, &marks);
        assert_eq!((first.code, first.found, first.number), (0, 1, places[0]));
        assert!(first.visits <= answer.visits);
        let mut summary = vec![0; 2 * k * N];
        assert_eq!(summarise(k, N, &points, &live, &order, &mut summary), 0);
        let mut tight_places = vec![0; N];
        let tight = list_tight(
            k,
            N,
            32,
            &points,
            &live,
            &order,
            &summary,
            &normals,
            &offsets,
            &marks,
            &mut tight_places,
        );
        assert!(tight.visits <= answer.visits);
        let visits = answer.visits;
        assert_eq!(Listing { visits, ..tight }, answer);
        assert_eq!(tight_places, places);
        let mut scanned_places = vec![0; N];
        let scanned = scan(
            k,
            N,
            32,
            &points,
            &live,
            &order,
            &normals,
            &offsets,
            &marks,
            &mut scanned_places,
        );
        assert_eq!((scanned.code, scanned.inside), (0, answer.inside));
        assert_eq!(scanned_places, places);
        assert!((65_535..=32 * 65_535).contains(&scanned.tests));
    }
}
