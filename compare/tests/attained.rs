//! The square bound is attained: on a shelf of 2 to the power H less 1 points, a face on the last dimension that
//! cuts the root box is visited exactly S times, be it closed or open, and be there dead numbers among the points or none.

use compare::bounds::Nearness;
use compare::calls;
use compare::cases;
use compare::chance::Chance;
use compare::lent::Lent;
use compare::shelves;
use compare::stock::Stock;
use second::live::{DEAD, LIVE};
use second::region::OPEN;

/// Cuts shelves of each such size, the full one among them.
#[test]
fn exactly_s() {
    let mut nearness = Nearness::default();
    cases::make("S attained", 64, |chance, case| {
        let (k, digits) = (1 + case % 4, 1 + case / 4 % 16);
        let n = (1 << digits) - 1;
        let mut points = Stock::Spread.points(chance, k, n);
        points[k - 1] = -32_768; // so that the root box reaches from end to end
        points[n * k - 1] = 32_767;
        let shelf = calls::shelf(&Lent::new(chance, k, points));
        attained(chance, &shelf, 32_767, &mut nearness);
    });
    println!("S attained: {nearness}");
}

/// Cuts shelves of each such number of live points, v, below n. The root box goes by the live ones, and S by v.
#[test]
fn exactly_s_of_the_live() {
    let mut nearness = Nearness::default();
    cases::make("S of the live attained", 60, |chance, case| {
        let (k, digits) = (1 + case % 4, 1 + case / 4 % 15);
        let v = (1 << digits) - 1;
        let mut points = Stock::Spread.points(chance, k, v);
        points[k - 1] = -30_000;
        points[v * k - 1] = 30_000;
        for x in points.iter_mut().skip(k - 1).step_by(k) {
            *x = (*x).clamp(-30_000, 30_000);
        }
        let shelf = Lent::new(chance, k, points);
        let live = with_dead(chance, v);
        let shelf = calls::shelf(&shelves::among_dead(chance, &shelf, live));
        assert!(shelf.v() == v && v < shelf.n);
        attained(chance, &shelf, 30_000, &mut nearness);
    });
    println!("S of the live attained: {nearness}");
}

/// The live bytes of so many live numbers with one to as many dead ones anywhere among them.
fn with_dead(chance: &mut Chance, v: usize) -> Vec<u8> {
    let dead = 1 + chance.below(v);
    let mut live = [vec![LIVE; v], vec![DEAD; dead]].concat();
    for place in (1..live.len()).rev() {
        live.swap(place, chance.below(place + 1));
    }
    live
}

/// Cuts a shelf between the ends of its root box, whose greatest coordinate is given, once with a closed face and once with an open one, and
/// asks for S visits.
fn attained(chance: &mut Chance, shelf: &Lent, end: i64, nearness: &mut Nearness) {
    let (k, v) = (shelf.k, shelf.v());
    let mut normal = vec![0; k];
    normal[k - 1] = 1;
    let middle = chance.between(1 - end, end);
    let closed = shelf.with_faces(normal.clone(), vec![middle]);
    let open = shelf.with_faces(normal, vec![middle - 1]); // above it are the same points
    for call in [closed, open.with_marks(vec![OPEN])] {
        let visits = calls::list(&call).0.visits;
        nearness.look(&call, visits);
        if v > 1 {
            assert_eq!(u64::from(visits), second::s(v, k), "{call:?}");
        }
    }
}
