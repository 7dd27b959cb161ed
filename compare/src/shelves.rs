//! Random shelves of 0 to 2,000 points, all live or among dead numbers, and regions on them.

use crate::calls;
use crate::chance::Chance;
use crate::faces;
use crate::lent::Lent;
use crate::live;
use crate::stock::Stock;

/// A shelf of this kind of points in this dimension.
pub fn of(chance: &mut Chance, stock: Stock, k: usize) -> Lent {
    let size = chance.one_of(&[5, 50, 500, 2_000]);
    let n = chance.below(size + 1);
    let points = stock.points(chance, k, n);
    calls::shelf(&Lent::new(chance, k, points))
}

/// The points of a shelf, all live, as the live numbers of these bytes, the others of any coordinates. Its order is not arranged.
pub fn among_dead(chance: &mut Chance, shelf: &Lent, live: Vec<u8>) -> Lent {
    let (k, n) = (shelf.k, live.len());
    let mut points = vec![0; n * k];
    live::scatter_dead(chance, k, &mut points, &live);
    let numbers = second::live::live_numbers(&live).into_iter();
    for (number, point) in numbers.zip(shelf.points.chunks(k)) {
        points[number as usize * k..][..k].copy_from_slice(point);
    }
    Lent {
        n,
        points,
        ..shelf.with_live(live)
    }
}

/// A shelf of this kind of points in this dimension, of up to so many numbers, some of them dead. The places of its buffers go by the live
/// ones.
pub fn with_dead(chance: &mut Chance, stock: Stock, k: usize, most: usize) -> Lent {
    let n = chance.below(most + 1);
    let live = live::bytes(chance, n);
    let points = stock.points(chance, k, live::count(&live));
    let shelf = Lent::new(chance, k, points);
    calls::shelf(&among_dead(chance, &shelf, live))
}

/// A shelf of the kind of points and the dimension whose turn it is: after each kind the next dimension.
pub fn in_turn(chance: &mut Chance, case: usize) -> Lent {
    let kinds = Stock::ALL.len();
    of(chance, Stock::ALL[case % kinds], 1 + case / kinds % 4)
}

/// The shelf with a region of 0 to 32 faces, all closed.
pub fn region(chance: &mut Chance, shelf: &Lent) -> Lent {
    let most = chance.one_of(&[0, 1, 1, 2, 8, 32]);
    let h = chance.below(most + 1);
    let (normals, offsets) = faces::region(chance, shelf.k, &shelf.live_points(), h);
    shelf.with_faces(normals, offsets)
}

/// The shelf with a region of any marks: as above, or of a few faces that mostly go exactly through points.
pub fn marked_region(chance: &mut Chance, shelf: &Lent) -> Lent {
    if chance.below(2) == 0 {
        let closed = region(chance, shelf);
        return closed.with_marks(faces::marks(chance, closed.h));
    }
    let h = 1 + chance.below(4);
    let points = shelf.live_points();
    (0..h).fold(shelf.clone(), |region, _| {
        region.with_face(&faces::marked(chance, shelf.k, &points))
    })
}
