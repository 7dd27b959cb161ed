//! Builders of the same tree on the standard library's select.

use crate::stock::Stock;

/// Arranges the shelf with keys of coordinate and number, read where they are compared.
pub fn build(stock: &Stock, order: &mut [u32]) {
    for (number, place) in order.iter_mut().enumerate() {
        *place = number as u32;
    }
    arrange(&stock.points, stock.k, 0, order);
}

/// Arranges the live numbers of a shelf in the same way.
pub fn build_live(stock: &Stock) -> Vec<u32> {
    let mut order = stock.live_numbers();
    arrange(&stock.points, stock.k, 0, &mut order);
    order
}

/// Puts the node of the run in the middle, then arranges both sides on the next dimension.
fn arrange(points: &[i32], k: usize, s: usize, run: &mut [u32]) {
    if run.len() < 2 {
        return;
    }
    let middle = run.len() / 2;
    run.select_nth_unstable_by_key(middle, |&p| (points[p as usize * k + s], p));
    let next = if s + 1 == k { 0 } else { s + 1 };
    arrange(points, k, next, &mut run[..middle]);
    arrange(points, k, next, &mut run[middle + 1..]);
}

/// Arranges the shelf with keys of coordinate and number packed into one, written in the place of the number while it is selected.
pub fn build_packed(stock: &Stock, order: &mut [u32]) {
    for (number, place) in order.iter_mut().enumerate() {
        *place = number as u32;
    }
    arrange_packed(&stock.points, stock.k, 0, order);
}

/// As `arrange`, with packed keys.
fn arrange_packed(points: &[i32], k: usize, s: usize, run: &mut [u32]) {
    if run.len() < 2 {
        return;
    }
    let middle = run.len() / 2;
    for place in run.iter_mut() {
        let coordinate = points[*place as usize * k + s];
        *place += ((coordinate + 32_768) as u32) << 16;
    }
    run.select_nth_unstable(middle);
    for place in run.iter_mut() {
        *place &= 0xffff;
    }
    let next = if s + 1 == k { 0 } else { s + 1 };
    arrange_packed(points, k, next, &mut run[..middle]);
    arrange_packed(points, k, next, &mut run[middle + 1..]);
}
