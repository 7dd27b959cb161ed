//! The table of numbers returned, test by test.

use crate::joined::total_of_faces;
use crate::live::{belongs, live_numbers, lowest_dead, total_live, DEAD, LIVE};
use crate::order::is_tree;
use crate::reading::{number_of_value, values, Reading};
use crate::region::{CLOSED, OPEN};
use crate::shelf::{live_shelf, point};
use crate::tight;

/// One test of the table: its number, and whether it holds.
type Test<'a> = (u32, &'a dyn Fn() -> bool);

/// The number of the first test that holds, 0 when none does. The tests stand
/// in the call's order, and none after the first that holds is made.
fn first_held(tests: &[Test]) -> u32 {
    let held = tests.iter().find(|(_, holds)| holds());
    held.map_or(0, |&(number, _)| number)
}

/// Number 1: k is not 1 to 4.
pub fn dimension_wrong(k: usize) -> bool {
    !(1..=4).contains(&k)
}

/// Number 2: n is over 65,535.
pub fn too_many_points(n: usize) -> bool {
    n > 65_535
}

/// Numbers 3, 7 and 18: a slice is not exactly `a` times `b` long.
pub fn not_times_long(length: usize, a: usize, b: usize) -> bool {
    length as u128 != a as u128 * b as u128
}

/// Number 4: the order or the list buffer is shorter than v.
pub fn shorter(length: usize, live: &[u8]) -> bool {
    length < total_live(live)
}

/// Number 4 of several regions: a buffer is shorter than `each` places a region.
pub fn shorter_for_each(length: usize, regions: usize, each: usize) -> bool {
    (length as u128) < regions as u128 * each as u128
}

/// Number 5: a coordinate is not -32,768 to 32,767.
pub fn coordinate_wrong(x: &[i32]) -> bool {
    x.iter().any(|x| !(-32_768..=32_767).contains(x))
}

/// Number 5 of a shelf: it asks the live points and passes over the dead ones.
pub fn live_coordinate_wrong(k: usize, points: &[i32], live: &[u8]) -> bool {
    let mut numbers = live_numbers(live).into_iter();
    numbers.any(|number| coordinate_wrong(point(k, points, number)))
}

/// Number 6: h is over 32.
pub fn too_many_faces(h: usize) -> bool {
    h > 32
}

/// Number 6 of several regions: a face count is over 32, each asked by itself.
pub fn too_many_faces_in_one(face_counts: &[u32]) -> bool {
    let mut each = face_counts.iter().map(|&count| count as usize);
    each.any(too_many_faces)
}

/// Number 7: the normals are not k times h long, or the offsets not h.
pub fn faces_not_long(k: usize, h: usize, normals: &[i32], offsets: &[i64]) -> bool {
    not_times_long(normals.len(), k, h) || offsets.len() != h
}

/// Number 8: a component is not -32,767 to 32,767, or an offset is not
/// -8,589,934,592 to 8,589,934,592.
pub fn face_wrong(normals: &[i32], offsets: &[i64]) -> bool {
    let component = |a: &i32| !(-32_767..=32_767).contains(a);
    let offset = |m: &i64| !(-8_589_934_592..=8_589_934_592).contains(m);
    normals.iter().any(component) || offsets.iter().any(offset)
}

/// Number 11: the marks are not h long, or one is neither closed nor open.
pub fn marks_wrong(h: usize, marks: &[u8]) -> bool {
    let another = |&mark: &u8| mark != CLOSED && mark != OPEN;
    marks.len() != h || marks.iter().any(another)
}

/// Number 12: a value of the reading is not finite, or not from -128 up to but
/// not including 128.
pub fn value_wrong(reading: Reading) -> bool {
    let wrong = |v: f32| number_of_value(v).is_none();
    values(reading).into_iter().any(wrong)
}

/// Number 14: the region count is not 1 to 64, or the face counts are not as many
/// as the regions.
pub fn regions_wrong(regions: usize, face_counts: &[u32]) -> bool {
    !(1..=64).contains(&regions) || face_counts.len() != regions
}

/// Number 15: the live bytes are not n long, or one says neither dead nor live.
pub fn live_wrong(n: usize, live: &[u8]) -> bool {
    let another = |&byte: &u8| byte != DEAD && byte != LIVE;
    live.len() != n || live.iter().any(another)
}

/// Number 16: no number is dead, so that none is free to be taken.
pub fn none_dead(live: &[u8]) -> bool {
    lowest_dead(live).is_none()
}

/// Number 17: the number is dead or not below n.
pub fn number_wrong(live: &[u8], number: u32) -> bool {
    !belongs(live, number)
}

/// Number 18: the summary is not 2k times v long.
pub fn summary_not_long(k: usize, live: &[u8], length: usize) -> bool {
    not_times_long(length, 2 * k, total_live(live))
}

/// Number 18, tested after 9: the summary is not the true one.
pub fn summary_wrong(
    k: usize,
    points: &[i32],
    live: &[u8],
    order: &[u32],
    summary: &[i32],
) -> bool {
    summary != tight::summary(&live_shelf(k, points, live, order))
}

/// What arrange returns: tests 1 to 3, then 15, then 4 and 5.
pub fn of_arrange(k: usize, n: usize, points: &[i32], live: &[u8], order: &[u32]) -> u32 {
    first_held(&[
        (1, &|| dimension_wrong(k)),
        (2, &|| too_many_points(n)),
        (3, &|| not_times_long(points.len(), k, n)),
        (15, &|| live_wrong(n, live)),
        (4, &|| shorter(order.len(), live)),
        (5, &|| live_coordinate_wrong(k, points, live)),
    ])
}

/// What list and scan return: tests 1 to 3, then 15, then 4 to 8, then 11, then 9.
/// Of the list buffer only its length counts.
#[allow(clippy::too_many_arguments)]
pub fn of_list(
    k: usize,
    n: usize,
    h: usize,
    points: &[i32],
    live: &[u8],
    order: &[u32],
    normals: &[i32],
    offsets: &[i64],
    marks: &[u8],
    list_length: usize,
) -> u32 {
    first_held(&[
        (1, &|| dimension_wrong(k)),
        (2, &|| too_many_points(n)),
        (3, &|| not_times_long(points.len(), k, n)),
        (15, &|| live_wrong(n, live)),
        (4, &|| {
            shorter(order.len(), live) || shorter(list_length, live)
        }),
        (5, &|| live_coordinate_wrong(k, points, live)),
        (6, &|| too_many_faces(h)),
        (7, &|| faces_not_long(k, h, normals, offsets)),
        (8, &|| face_wrong(normals, offsets)),
        (11, &|| marks_wrong(h, marks)),
        (9, &|| !is_tree(k, points, live, order)),
    ])
}

/// What summarise returns: tests 1 to 3, then 15, 4 and 18, then 5 and 9. Of the
/// summary only its length counts.
pub fn of_summarise(
    k: usize,
    n: usize,
    points: &[i32],
    live: &[u8],
    order: &[u32],
    summary_length: usize,
) -> u32 {
    first_held(&[
        (1, &|| dimension_wrong(k)),
        (2, &|| too_many_points(n)),
        (3, &|| not_times_long(points.len(), k, n)),
        (15, &|| live_wrong(n, live)),
        (4, &|| shorter(order.len(), live)),
        (18, &|| summary_not_long(k, live, summary_length)),
        (5, &|| live_coordinate_wrong(k, points, live)),
        (9, &|| !is_tree(k, points, live, order)),
    ])
}

/// What list by tight boxes returns: the tests of list, with 18 for the summary's
/// length after 4, and last of all 18 for its truth.
#[allow(clippy::too_many_arguments)]
pub fn of_list_tight(
    k: usize,
    n: usize,
    h: usize,
    points: &[i32],
    live: &[u8],
    order: &[u32],
    summary: &[i32],
    normals: &[i32],
    offsets: &[i64],
    marks: &[u8],
    list_length: usize,
) -> u32 {
    first_held(&[
        (1, &|| dimension_wrong(k)),
        (2, &|| too_many_points(n)),
        (3, &|| not_times_long(points.len(), k, n)),
        (15, &|| live_wrong(n, live)),
        (4, &|| {
            shorter(order.len(), live) || shorter(list_length, live)
        }),
        (18, &|| summary_not_long(k, live, summary.len())),
        (5, &|| live_coordinate_wrong(k, points, live)),
        (6, &|| too_many_faces(h)),
        (7, &|| faces_not_long(k, h, normals, offsets)),
        (8, &|| face_wrong(normals, offsets)),
        (11, &|| marks_wrong(h, marks)),
        (9, &|| !is_tree(k, points, live, order)),
        (18, &|| summary_wrong(k, points, live, order, summary)),
    ])
}

/// What the list of several regions returns: tests 1 to 3, then 15 and 14, then 4
/// to 8, then 11, then 9. Of the two buffers only their lengths count. Tests 7, 8
/// and 11 are of the joined slices; the face counts are added up only after test 6.
#[allow(clippy::too_many_arguments)]
pub fn of_list_regions(
    k: usize,
    n: usize,
    regions: usize,
    points: &[i32],
    live: &[u8],
    order: &[u32],
    face_counts: &[u32],
    normals: &[i32],
    offsets: &[i64],
    marks: &[u8],
    lists_length: usize,
    counts_length: usize,
) -> u32 {
    let total = || total_of_faces(face_counts);
    first_held(&[
        (1, &|| dimension_wrong(k)),
        (2, &|| too_many_points(n)),
        (3, &|| not_times_long(points.len(), k, n)),
        (15, &|| live_wrong(n, live)),
        (14, &|| regions_wrong(regions, face_counts)),
        (4, &|| {
            shorter(order.len(), live)
                || shorter_for_each(lists_length, regions, total_live(live))
                || shorter_for_each(counts_length, regions, 3)
        }),
        (5, &|| live_coordinate_wrong(k, points, live)),
        (6, &|| too_many_faces_in_one(face_counts)),
        (7, &|| faces_not_long(k, total(), normals, offsets)),
        (8, &|| face_wrong(normals, offsets)),
        (11, &|| marks_wrong(total(), marks)),
        (9, &|| !is_tree(k, points, live, order)),
    ])
}

/// What screen returns: the tests of list, without the list buffer.
#[allow(clippy::too_many_arguments)]
pub fn of_screen(
    k: usize,
    n: usize,
    h: usize,
    points: &[i32],
    live: &[u8],
    order: &[u32],
    normals: &[i32],
    offsets: &[i64],
    marks: &[u8],
) -> u32 {
    first_held(&[
        (1, &|| dimension_wrong(k)),
        (2, &|| too_many_points(n)),
        (3, &|| not_times_long(points.len(), k, n)),
        (15, &|| live_wrong(n, live)),
        (4, &|| shorter(order.len(), live)),
        (5, &|| live_coordinate_wrong(k, points, live)),
        (6, &|| too_many_faces(h)),
        (7, &|| faces_not_long(k, h, normals, offsets)),
        (8, &|| face_wrong(normals, offsets)),
        (11, &|| marks_wrong(h, marks)),
        (9, &|| !is_tree(k, points, live, order)),
    ])
}

/// What explain returns: the tests of list, without the list buffer, then 17.
#[allow(clippy::too_many_arguments)]
pub fn of_explain(
    k: usize,
    n: usize,
    h: usize,
    number: u32,
    points: &[i32],
    live: &[u8],
    order: &[u32],
    normals: &[i32],
    offsets: &[i64],
    marks: &[u8],
) -> u32 {
    first_held(&[
        (1, &|| dimension_wrong(k)),
        (2, &|| too_many_points(n)),
        (3, &|| not_times_long(points.len(), k, n)),
        (15, &|| live_wrong(n, live)),
        (4, &|| shorter(order.len(), live)),
        (5, &|| live_coordinate_wrong(k, points, live)),
        (6, &|| too_many_faces(h)),
        (7, &|| faces_not_long(k, h, normals, offsets)),
        (8, &|| face_wrong(normals, offsets)),
        (11, &|| marks_wrong(h, marks)),
        (9, &|| !is_tree(k, points, live, order)),
        (17, &|| number_wrong(live, number)),
    ])
}

/// What the one-point test returns: tests 1, 3, 5 to 8 and 11.
pub fn of_place(
    k: usize,
    h: usize,
    point: &[i32],
    normals: &[i32],
    offsets: &[i64],
    marks: &[u8],
) -> u32 {
    first_held(&[
        (1, &|| dimension_wrong(k)),
        (3, &|| point.len() != k),
        (5, &|| coordinate_wrong(point)),
        (6, &|| too_many_faces(h)),
        (7, &|| faces_not_long(k, h, normals, offsets)),
        (8, &|| face_wrong(normals, offsets)),
        (11, &|| marks_wrong(h, marks)),
    ])
}

/// What take returns: tests 1 to 3, then 15, 5 and 16. Tests 3 and 5 are also of
/// the new point.
pub fn of_take(k: usize, n: usize, points: &[i32], live: &[u8], point: &[i32]) -> u32 {
    first_held(&[
        (1, &|| dimension_wrong(k)),
        (2, &|| too_many_points(n)),
        (3, &|| {
            not_times_long(points.len(), k, n) || point.len() != k
        }),
        (15, &|| live_wrong(n, live)),
        (5, &|| {
            live_coordinate_wrong(k, points, live) || coordinate_wrong(point)
        }),
        (16, &|| none_dead(live)),
    ])
}

/// What withdraw returns: tests 2, 15 and 17.
pub fn of_withdraw(n: usize, number: u32, live: &[u8]) -> u32 {
    first_held(&[
        (2, &|| too_many_points(n)),
        (15, &|| live_wrong(n, live)),
        (17, &|| number_wrong(live, number)),
    ])
}

/// What the three calls that make a point return: tests 3 and 12, for every
/// reading. Of the lent place only its length counts.
pub fn of_reading(reading: Reading, place_length: usize) -> u32 {
    first_held(&[(3, &|| place_length != 3), (12, &|| value_wrong(reading))])
}
