//! Several regions in one call, every point live: worked examples, refusals, limits
//! on both sides, and random cases against list, region by region.

use second::{arrange, is_square, list, list_regions, open_slots, place, s, visits_of_face};
use std::time::Instant;

const A: [i32; 12] = [1, 5, 4, 2, 4, 8, 7, 1, 6, 6, 2, 2];
const A_ORDER: [u32; 6] = [1, 5, 0, 2, 3, 4];
const LAST_OFFSET: i64 = 8_589_934_592;

/// A region: normals, offsets and marks.
type Region<'a> = (&'a [i32], &'a [i64], &'a [u8]);

/// What one region is given: inside, outside and visits, and its n places.
type Listed = ([u32; 3], Vec<u32>);

/// The arguments of a call, with what its two buffers hold before.
#[derive(Clone)]
struct Lent {
    k: usize,
    n: usize,
    regions: usize,
    points: Vec<i32>,
    live: Vec<u8>,
    order: Vec<u32>,
    face_counts: Vec<u32>,
    normals: Vec<i32>,
    offsets: Vec<i64>,
    marks: Vec<u8>,
    lists: Vec<u32>,
    counts: Vec<u32>,
}

/// Arranges these points, which must be done, and gives the order.
fn arranged(k: usize, points: &[i32]) -> Vec<u32> {
    let n = points.len() / k;
    let mut order = vec![77; n];
    assert_eq!(arrange(k, n, points, &vec![1; n], &mut order).code, 0);
    order
}

/// The call for these regions of a arranged shelf, their faces end to end. The order
/// and both buffers have two places more than they need.
fn lent(k: usize, points: &[i32], regions: &[Region]) -> Lent {
    let order = arranged(k, points);
    let n = order.len();
    let faces = |region: &Region| region.1.len() as u32;
    Lent {
        k,
        n,
        regions: regions.len(),
        points: points.to_vec(),
        live: vec![1; n],
        order: [&order[..], &[70, 71]].concat(),
        face_counts: regions.iter().map(faces).collect(),
        normals: regions
            .iter()
            .flat_map(|region| region.0.to_vec())
            .collect(),
        offsets: regions
            .iter()
            .flat_map(|region| region.1.to_vec())
            .collect(),
        marks: regions
            .iter()
            .flat_map(|region| region.2.to_vec())
            .collect(),
        lists: [vec![88; regions.len() * n], vec![80, 81]].concat(),
        counts: [vec![99; regions.len() * 3], vec![90, 91]].concat(),
    }
}

/// Calls, and gives the answer with both buffers afterwards.
fn called(lent: &Lent) -> (u32, Vec<u32>, Vec<u32>) {
    let (mut lists, mut counts) = (lent.lists.clone(), lent.counts.clone());
    let code = list_regions(
        lent.k,
        lent.n,
        lent.regions,
        &lent.points,
        &lent.live,
        &lent.order,
        &lent.face_counts,
        &lent.normals,
        &lent.offsets,
        &lent.marks,
        &mut lists,
        &mut counts,
    );
    (code, lists, counts)
}

/// Calls, which must be done and keep later places, and takes the buffers apart:
/// region r has places r times n on of the one and 3r on of the other.
fn done(lent: &Lent) -> Vec<Listed> {
    let (code, lists, counts) = called(lent);
    let (n, regions) = (lent.n, lent.regions);
    assert_eq!(code, 0);
    assert_eq!(lists[regions * n..], lent.lists[regions * n..]);
    assert_eq!(counts[regions * 3..], lent.counts[regions * 3..]);
    let own = |r: usize| {
        let three = [counts[3 * r], counts[3 * r + 1], counts[3 * r + 2]];
        (three, lists[r * n..(r + 1) * n].to_vec())
    };
    (0..regions).map(own).collect()
}

/// Asks that the call is refused with this number and writes nothing.
fn refuses(lent: &Lent, code: u32) {
    let untouched = (code, lent.lists.clone(), lent.counts.clone());
    assert_eq!(called(lent), untouched);
}

/// Asks for this number: done, or refused with nothing written.
fn answers(lent: &Lent, code: u32) {
    match code {
        0 => assert_eq!(called(lent).0, 0),
        _ => refuses(lent, code),
    }
}

/// The code of the list of one region alone, and what it gives.
fn alone(k: usize, points: &[i32], order: &[u32], region: Region) -> (u32, Listed) {
    let (normals, offsets, marks) = region;
    let (n, h) = (points.len() / k, offsets.len());
    let (live, mut places) = (&vec![1; n], vec![88; n]);
    let buffer = &mut places;
    let answer = list(
        k, n, h, points, live, order, normals, offsets, marks, buffer,
    );
    let three = [answer.inside, answer.outside, answer.visits];
    (answer.code, (three, places))
}

/// A region of shelf A, and what it is given, worked out by hand.
type Row<'a> = (Region<'a>, [u32; 3], [u32; 6]);

/// The examples of shelf A, then its face (1, 0), m 4 with either mark, and each
/// of its two faces taken alone.
const ROWS: [Row; 12] = [
    (
        (&[1, 1, -1, 0], &[7, -6], &[0, 0]),
        [2, 4, 5],
        [2, 4, 3, 0, 5, 1],
    ),
    ((&[1, 0], &[5], &[0]), [2, 4, 3], [3, 4, 2, 0, 5, 1]),
    ((&[1, 0], &[1], &[0]), [6, 0, 0], [1, 5, 0, 2, 3, 4]),
    ((&[1, 0], &[8], &[0]), [0, 6, 0], [4, 3, 2, 0, 5, 1]),
    ((&[1, 1], &[6], &[0]), [5, 1, 6], [1, 0, 2, 3, 4, 5]),
    ((&[], &[], &[]), [6, 0, 0], [1, 5, 0, 2, 3, 4]),
    ((&[0, 0], &[0], &[0]), [6, 0, 0], [1, 5, 0, 2, 3, 4]),
    ((&[0, 0], &[1], &[0]), [0, 6, 0], [4, 3, 2, 0, 5, 1]),
    ((&[1, 0], &[4], &[0]), [4, 2, 4], [1, 2, 3, 4, 0, 5]),
    ((&[1, 0], &[4], &[1]), [2, 4, 3], [3, 4, 2, 0, 5, 1]),
    ((&[1, 1], &[7], &[0]), [3, 3, 5], [2, 3, 4, 0, 5, 1]),
    ((&[-1, 0], &[-6], &[0]), [5, 1, 3], [1, 5, 0, 2, 4, 3]),
];

/// Asks that these rows of shelf A in one call are given what stands in them.
fn rows_are_given(rows: &[Row]) {
    let regions: Vec<Region> = rows.iter().map(|row| row.0).collect();
    let given = rows.iter().map(|row| (row.1, row.2.to_vec()));
    assert_eq!(done(&lent(2, &A, &regions)), given.collect::<Vec<_>>());
}

/// Shelf A with its two faces, with no faces, and with face (1, 0), m 5: both
/// buffers whole, with two later places each.
#[test]
fn three_regions() {
    let (mut lists, mut counts) = ([88; 20], [99; 11]);
    let code = list_regions(
        2,
        6,
        3,
        &A,
        &[1; 6],
        &A_ORDER,
        &[2, 0, 1],
        &[1, 1, -1, 0, 1, 0],
        &[7, -6, 5],
        &[0, 0, 0],
        &mut lists,
        &mut counts,
    );
    assert_eq!(code, 0);
    assert_eq!(lists[..6], [2, 4, 3, 0, 5, 1]);
    assert_eq!(lists[6..12], [1, 5, 0, 2, 3, 4]);
    assert_eq!(lists[12..], [3, 4, 2, 0, 5, 1, 88, 88]);
    assert_eq!(counts, [2, 4, 5, 6, 0, 0, 2, 4, 3, 99, 99]);
}

/// Each row in a call of its own.
#[test]
fn one_region() {
    for row in ROWS {
        rows_are_given(&[row]);
    }
}

/// Any two rows in one call, a row with itself too.
#[test]
fn two_regions() {
    for first in ROWS {
        for second in ROWS {
            rows_are_given(&[first, second]);
        }
    }
}

/// All rows in one call, begun at each of them, forwards and backwards.
#[test]
fn twelve_regions() {
    let mut rows = ROWS;
    for _ in 0..ROWS.len() {
        rows.rotate_left(1);
        rows_are_given(&rows);
        rows.reverse();
        rows_are_given(&rows);
        rows.reverse();
    }
}

/// As many regions as there may be, the rows over and over.
#[test]
fn sixty_four_rows() {
    let rows: Vec<Row> = ROWS.into_iter().cycle().take(64).collect();
    rows_are_given(&rows);
}

/// The joined slices of shelf A's two faces stay, and the face counts alone say
/// which region has which: a face, both, or none.
#[test]
fn faces_cut_in_every_way() {
    let both = ([2, 4, 5], vec![2, 4, 3, 0, 5, 1]);
    let none = ([6, 0, 0], vec![1, 5, 0, 2, 3, 4]);
    let first = ([3, 3, 5], vec![2, 3, 4, 0, 5, 1]);
    let second = ([5, 1, 3], vec![1, 5, 0, 2, 4, 3]);
    let cuts: [(&[u32], &[&Listed]); 8] = [
        (&[2], &[&both]),
        (&[1, 1], &[&first, &second]),
        (&[0, 2], &[&none, &both]),
        (&[2, 0], &[&both, &none]),
        (&[1, 0, 1], &[&first, &none, &second]),
        (&[0, 1, 1], &[&none, &first, &second]),
        (&[0, 0, 2], &[&none, &none, &both]),
        (&[0, 1, 0, 1, 0], &[&none, &first, &none, &second, &none]),
    ];
    for (face_counts, given) in cuts {
        let mut cut = lent(2, &A, &vec![ROWS[5].0; face_counts.len()]);
        cut.face_counts = face_counts.to_vec();
        cut.normals = vec![1, 1, -1, 0];
        cut.offsets = vec![7, -6];
        cut.marks = vec![0, 0];
        assert_eq!(done(&cut).iter().collect::<Vec<_>>(), given);
    }
}

/// Two bins side by side on shelf A, x 4 or more and x less than 4: the shared
/// face is closed in the one and open in the other. Each number is inside one.
#[test]
fn bins_side_by_side() {
    let regions: [Region; 2] = [(&[1, 0], &[4], &[0]), (&[-1, 0], &[-4], &[1])];
    let upper = ([4, 2, 4], vec![1, 2, 3, 4, 0, 5]);
    let lower = ([2, 4, 4], vec![5, 0, 4, 3, 2, 1]);
    assert_eq!(done(&lent(2, &A, &regions)), [upper, lower]);
}

/// One and the same face in two regions, with each pair of marks: a mark belongs
/// to its own region's face.
#[test]
fn each_region_has_its_own_marks() {
    let given = |mark: u8| match mark {
        0 => (ROWS[8].1, ROWS[8].2.to_vec()),
        _ => (ROWS[9].1, ROWS[9].2.to_vec()),
    };
    for (first, second) in [(0, 0), (0, 1), (1, 0), (1, 1)] {
        let regions: [Region; 2] = [(&[1, 0], &[4], &[first]), (&[1, 0], &[4], &[second])];
        assert_eq!(done(&lent(2, &A, &regions)), [given(first), given(second)]);
    }
}

/// Two points 0 and 10 of one dimension, and one point (4, 2).
#[test]
fn small_shelves() {
    let regions: [Region; 3] = [(&[1], &[5], &[0]), (&[], &[], &[]), (&[1], &[11], &[0])];
    let given = [([1, 1, 2], vec![1, 0]), ([2, 0, 0], vec![0, 1])];
    let last = ([0, 2, 0], vec![1, 0]);
    assert_eq!(done(&lent(1, &[0, 10], &regions))[..2], given);
    assert_eq!(done(&lent(1, &[0, 10], &regions))[2], last);
    let regions = [ROWS[0].0, ROWS[5].0];
    let given = [([0, 1, 0], vec![0]), ([1, 0, 0], vec![0])];
    assert_eq!(done(&lent(2, &[4, 2], &regions)), given);
}

/// The empty shelf: three zeros for each region, and no place of the lists is
/// written, however many there are.
#[test]
fn empty_shelf() {
    for regions in [1, 2, 63, 64] {
        let mut empty = lent(2, &[], &vec![ROWS[0].0; regions]);
        assert_eq!(done(&empty), vec![([0, 0, 0], vec![]); regions]);
        empty.lists.clear();
        empty.order.clear();
        empty.counts.truncate(regions * 3);
        assert_eq!(called(&empty), (0, vec![], vec![0; regions * 3]));
    }
}

/// Points 0 to 9 of one dimension and 64 regions with face 1, m from -27 to 36:
/// inside are the numbers from m on, and the others stand backwards after them.
#[test]
fn sixty_four_thresholds() {
    let points: Vec<i32> = (0..10).collect();
    let offsets: Vec<i64> = (-27..=36).collect();
    let regions: Vec<Region> = offsets
        .chunks(1)
        .map(|offset| (&[1][..], offset, &[0][..]))
        .collect();
    for (m, (three, places)) in offsets.iter().zip(done(&lent(1, &points, &regions))) {
        let first = (*m).clamp(0, 10) as u32;
        assert_eq!(
            places,
            (first..10).chain((0..first).rev()).collect::<Vec<_>>()
        );
        assert_eq!(three[..2], [10 - first, first]);
        assert_eq!(three[2] == 0, *m <= 0 || *m > 9);
    }
}

/// A full shelf of one dimension and 64 regions with one face each, both buffers
/// just long enough. No face has more visits than S, which is 16.
#[test]
fn full_shelf_and_all_regions() {
    let points: Vec<i32> = (-32_768..=32_766).collect();
    let offsets: Vec<i64> = (0..64).map(|region| -32_768 + 1_040 * region).collect();
    let regions: Vec<Region> = offsets
        .chunks(1)
        .map(|offset| (&[1][..], offset, &[0][..]))
        .collect();
    let mut full = lent(1, &points, &regions);
    full.order.truncate(65_535);
    full.lists.truncate(4_194_240);
    full.counts.truncate(192);
    let start = Instant::now();
    let given = done(&full);
    println!("full shelf, 64 regions: {:?}", start.elapsed());
    for (region, (three, places)) in given.into_iter().enumerate() {
        let first = 1_040 * region as u32;
        assert!(places
            .iter()
            .copied()
            .eq((first..65_535).chain((0..first).rev())));
        assert_eq!(three[..2], [65_535 - first, first]);
        assert!((1..=16).contains(&three[2]) || region == 0 && three[2] == 0);
    }
    full.lists.pop();
    refuses(&full, 4);
}

/// A right call: two points of one dimension and two regions, of one face and of
/// two. Both buffers and the order have one later place.
fn right() -> Lent {
    Lent {
        k: 1,
        n: 2,
        regions: 2,
        points: vec![0, 10],
        live: vec![1; 2],
        order: vec![0, 1, 70],
        face_counts: vec![1, 2],
        normals: vec![1, -1, 1],
        offsets: vec![5, -5, 0],
        marks: vec![0, 1, 0],
        lists: vec![80, 81, 82, 83, 84],
        counts: vec![90, 91, 92, 93, 94, 95, 96],
    }
}

/// The right call is done. Region 0 has number 1 inside and region 1 number 0;
/// the root box 0..10 is open in both slots of both.
#[test]
fn right_call() {
    let (code, lists, counts) = called(&right());
    assert_eq!(code, 0);
    assert_eq!(lists, [1, 0, 0, 1, 84]);
    assert_eq!(counts, [1, 1, 2, 1, 1, 2, 96]);
}

/// A change that brings one refusal about.
type Break = (u32, fn(&mut Lent));

/// Breaks for each number, in the call's order from the last test to the first:
/// 9, then 11, then 8 down to 4, then 14 and 15, then 3 down to 1.
const BREAKS: [Break; 30] = [
    (9, |lent| lent.order[1] = 0),
    (9, |lent| lent.order[0] = 2),
    (11, |lent| lent.marks[2] = 2),
    (11, |lent| lent.marks[0] = 255),
    (11, |lent| lent.marks.push(0)),
    (8, |lent| lent.offsets[0] = LAST_OFFSET + 1),
    (8, |lent| lent.offsets[2] = -LAST_OFFSET - 1),
    (8, |lent| lent.normals[2] = -32_768),
    (8, |lent| lent.normals[0] = 32_768),
    (7, |lent| lent.normals.push(0)),
    (7, |lent| lent.offsets.push(0)),
    (6, |lent| lent.face_counts[0] = 33),
    (6, |lent| lent.face_counts[1] = 33),
    (6, |lent| lent.face_counts[1] = u32::MAX),
    (5, |lent| lent.points[0] = -32_769),
    (5, |lent| lent.points[1] = 32_768),
    (4, |lent| lent.counts.truncate(5)),
    (4, |lent| lent.lists.truncate(3)),
    (4, |lent| lent.order.truncate(1)),
    (14, |lent| lent.face_counts.push(0)),
    (14, |lent| lent.face_counts.truncate(1)),
    (14, |lent| lent.regions = 65),
    (14, |lent| lent.regions = 0),
    (15, |lent| lent.live.push(1)),
    (15, |lent| lent.live[0] = 2),
    (3, |lent| lent.points.push(0)),
    (3, |lent| lent.points.truncate(1)),
    (2, |lent| lent.n = 65_536),
    (1, |lent| lent.k = 5),
    (1, |lent| lent.k = 0),
];

/// Each break alone: its own number, and nothing written.
#[test]
fn refuses_each_alone() {
    for (code, change) in BREAKS {
        let mut lent = right();
        change(&mut lent);
        refuses(&lent, code);
    }
}

/// Any two breaks together: the number that comes first in the call's order.
#[test]
fn refuses_the_first_of_two() {
    for (place, (_, late)) in BREAKS.into_iter().enumerate() {
        for (code, early) in BREAKS.into_iter().skip(place + 1) {
            let mut lent = right();
            late(&mut lent);
            early(&mut lent);
            refuses(&lent, code);
        }
    }
}

/// All breaks heaped up from the last test to the first: always the first in the
/// call's order so far.
#[test]
fn refuses_in_its_order() {
    let mut lent = right();
    for (code, change) in BREAKS {
        change(&mut lent);
        refuses(&lent, code);
    }
}

/// So many regions with `faces` faces each, on the shelf 0, 10: every slice and
/// buffer is just long enough.
fn even(regions: usize, faces: usize) -> Lent {
    let total = regions * faces;
    Lent {
        regions,
        order: vec![0, 1],
        face_counts: vec![faces as u32; regions],
        normals: vec![1; total],
        offsets: vec![5; total],
        marks: vec![0; total],
        lists: vec![88; regions * 2],
        counts: vec![99; regions * 3],
        ..right()
    }
}

/// Region counts on both sides of both limits, with slices and buffers to fit.
#[test]
fn region_counts_on_both_sides() {
    let rows = [
        (0, 14),
        (1, 0),
        (2, 0),
        (63, 0),
        (64, 0),
        (65, 14),
        (66, 14),
    ];
    for (regions, code) in rows {
        for faces in [0, 1, 2] {
            answers(&even(regions, faces), code);
        }
    }
}

/// Face counts one too few, one too many, and none, for every region count.
#[test]
fn face_counts_of_another_length() {
    for regions in 1..=64 {
        for length in [0, regions - 1, regions, regions + 1, 2 * regions] {
            let mut lent = even(regions, 0);
            lent.face_counts = vec![0; length];
            answers(&lent, if length == regions { 0 } else { 14 });
        }
    }
}

/// A face count on both sides of its limit, in each of three regions, with
/// slices to fit.
#[test]
fn face_counts_on_both_sides() {
    let rows = [(0, 0), (1, 0), (31, 0), (32, 0), (33, 6), (34, 6), (64, 6)];
    for (faces, code) in rows {
        for region in 0..3 {
            let mut lent = even(3, 1);
            lent.face_counts[region] = faces as u32;
            lent.normals = vec![1; 2 + faces];
            lent.offsets = vec![5; 2 + faces];
            lent.marks = vec![0; 2 + faces];
            answers(&lent, code);
        }
    }
}

/// The greatest face counts: 6, whatever their sum would come to in 32 bits.
#[test]
fn greatest_face_counts() {
    let half = 1 << 31;
    let rows = [
        vec![u32::MAX],
        vec![u32::MAX - 31],
        vec![half],
        vec![u32::MAX, 2],
        vec![2, u32::MAX],
        vec![half, half],
        vec![half, half, 1],
        vec![u32::MAX; 64],
        vec![1 << 26; 64],
    ];
    for face_counts in rows {
        for total in [0, 1, 32] {
            let mut lent = even(face_counts.len(), 0);
            lent.face_counts = face_counts.clone();
            lent.normals = vec![1; total];
            lent.offsets = vec![5; total];
            lent.marks = vec![0; total];
            refuses(&lent, 6);
        }
    }
}

/// The limit of 32 is for each region and not for all together: 64 regions of 32
/// faces are done, and 33 faces in any one of them are too many.
#[test]
fn all_regions_full_of_faces() {
    let full = even(64, 32);
    assert_eq!(full.offsets.len(), 2_048);
    assert_eq!(done(&full), vec![([1, 1, 2], vec![1, 0]); 64]);
    for region in 0..64 {
        let mut over = full.clone();
        over.face_counts[region] = 33;
        over.normals.push(1);
        over.offsets.push(5);
        over.marks.push(0);
        refuses(&over, 6);
    }
}

/// Only the last face of a full region decides: each region has its own.
#[test]
fn last_face_of_each_region() {
    for region in 0..64 {
        let mut lent = even(64, 32);
        lent.offsets[region * 32 + 31] = 11;
        let mut given = vec![([1, 1, 2], vec![1, 0]); 64];
        given[region] = ([0, 2, 0], vec![1, 0]);
        assert_eq!(done(&lent), given);
    }
}

/// The joined slices one too short and one too long: 7 for normals and offsets,
/// 11 for marks. There are three faces of two components.
#[test]
fn total_lengths_on_both_sides() {
    let regions = [ROWS[0].0, ROWS[5].0, ROWS[1].0];
    for (length, code) in [(0, 7), (5, 7), (6, 0), (7, 7), (12, 7)] {
        let mut lent = lent(2, &A, &regions);
        lent.normals = vec![1; length];
        answers(&lent, code);
    }
    for (length, code) in [(0, 7), (2, 7), (3, 0), (4, 7), (6, 7)] {
        let mut lent = lent(2, &A, &regions);
        lent.offsets = vec![5; length];
        answers(&lent, code);
    }
    for (length, code) in [(0, 11), (2, 11), (3, 0), (4, 11), (6, 11)] {
        let mut lent = lent(2, &A, &regions);
        lent.marks = vec![1; length];
        answers(&lent, code);
    }
}

/// One face more or less in any region's count alone: the joined slices no longer
/// fit, which is 7.
#[test]
fn one_face_more_or_less() {
    for region in 0..3 {
        let mut more = even(3, 2);
        more.face_counts[region] = 3;
        refuses(&more, 7);
        let mut less = even(3, 2);
        less.face_counts[region] = 1;
        refuses(&less, 7);
    }
}

/// The order short of n, the lists short of n places a region, or the counts
/// short of 3 places a region, each by one place alone.
#[test]
fn buffers_on_both_sides() {
    for regions in [1, 2, 3, 63, 64] {
        for (length, code) in [(0, 4), (1, 4), (2, 0), (3, 0)] {
            let mut lent = even(regions, 1);
            lent.order = [0, 1, 70][..length].to_vec();
            answers(&lent, code);
        }
        let need = regions * 2;
        for (length, code) in [(0, 4), (need - 1, 4), (need, 0), (need + 1, 0)] {
            let mut lent = even(regions, 1);
            lent.lists = vec![88; length];
            answers(&lent, code);
        }
        let need = regions * 3;
        for (length, code) in [(0, 4), (need - 1, 4), (need, 0), (need + 1, 0)] {
            let mut lent = even(regions, 1);
            lent.counts = vec![99; length];
            answers(&lent, code);
        }
    }
}

/// On the empty shelf the lists may be empty, but not the counts; regions, faces
/// and marks are tested all the same.
#[test]
fn empty_shelf_is_tested() {
    let mut empty = lent(2, &[], &[ROWS[0].0, ROWS[1].0]);
    empty.lists.clear();
    answers(&empty, 0);
    let broken = |change: fn(&mut Lent)| {
        let mut lent = empty.clone();
        change(&mut lent);
        lent
    };
    refuses(&broken(|lent| lent.counts.truncate(5)), 4);
    refuses(&broken(|lent| lent.counts.clear()), 4);
    refuses(&broken(|lent| lent.regions = 3), 14);
    refuses(&broken(|lent| lent.regions = 0), 14);
    refuses(&broken(|lent| lent.face_counts[1] = 33), 6);
    refuses(&broken(|lent| lent.offsets.truncate(2)), 7);
    refuses(&broken(|lent| lent.normals[5] = -32_768), 8);
    refuses(&broken(|lent| lent.marks[2] = 2), 11);
}

/// A component, an offset or a mark out of range refuses the whole call,
/// whichever region has it; on its limits it does not.
#[test]
fn one_bad_region() {
    let m = LAST_OFFSET;
    let components = [(-32_768, 8), (-32_767, 0), (32_767, 0), (32_768, 8)];
    let offsets = [(-m - 1, 8), (-m, 0), (m, 0), (m + 1, 8), (i64::MIN, 8)];
    let marks = [(0, 0), (1, 0), (2, 11), (3, 11), (128, 11), (255, 11)];
    for face in 0..64 {
        for (component, code) in components {
            let mut lent = even(32, 2);
            lent.normals[face] = component;
            answers(&lent, code);
        }
        for (offset, code) in offsets {
            let mut lent = even(32, 2);
            lent.offsets[face] = offset;
            answers(&lent, code);
        }
        for (mark, code) in marks {
            let mut lent = even(32, 2);
            lent.marks[face] = mark;
            answers(&lent, code);
        }
    }
}

/// 9 for a number twice and for a number at least n, also where no region has a
/// face; later places of the order are not read.
#[test]
fn strange_orders() {
    for faces in [0, 1] {
        for order in [[0, 0], [1, 1], [1, 0], [0, 2], [0, u32::MAX]] {
            let mut lent = even(3, faces);
            lent.order = order.to_vec();
            refuses(&lent, 9);
        }
        for later in [0, 1, 2, u32::MAX] {
            let mut lent = even(3, faces);
            lent.order.push(later);
            assert_eq!(done(&lent), done(&even(3, faces)));
        }
    }
}

/// The greatest counts of all neither overflow nor panic.
#[test]
fn greatest_counts_are_refused() {
    let most = usize::MAX;
    let code = |k, n, regions, face_counts: &[u32]| {
        let (lists, counts) = (&mut [], &mut []);
        list_regions(
            k,
            n,
            regions,
            &[],
            &[],
            &[],
            face_counts,
            &[],
            &[],
            &[],
            lists,
            counts,
        )
    };
    assert_eq!(code(most, most, most, &[]), 1);
    assert_eq!(code(4, most, most, &[]), 2);
    assert_eq!(code(4, most / 4 + 1, most, &[]), 2);
    assert_eq!(code(4, 65_535, most, &[]), 3);
    assert_eq!(code(4, 0, most, &[]), 14);
    assert_eq!(code(4, 0, most, &[u32::MAX; 65]), 14);
    assert_eq!(code(4, 0, most / 3 + 1, &[]), 14);
    assert_eq!(code(4, 0, 64, &[u32::MAX; 64]), 4);
}

/// One random region: its normals, offsets and marks.
type Thrown = (Vec<i32>, Vec<i64>, Vec<u8>);

/// One random case: points with their arranged order, and regions.
struct Case {
    k: usize,
    points: Vec<i32>,
    order: Vec<u32>,
    regions: Vec<Thrown>,
}

impl Case {
    /// The regions with their slices lent.
    fn regions(&self) -> Vec<Region<'_>> {
        let slices = self.regions.iter();
        slices
            .map(|(a, m, marks)| (&a[..], &m[..], &marks[..]))
            .collect()
    }

    /// The call for all regions.
    fn lent(&self) -> Lent {
        lent(self.k, &self.points, &self.regions())
    }

    /// The code of the list of this region alone, and what it gives.
    fn alone(&self, region: usize) -> (u32, Listed) {
        let region = self.regions()[region];
        alone(self.k, &self.points, &self.order, region)
    }
}

/// So many numbers that look random, from `least` to `greatest`.
fn thrown(state: &mut u64, count: usize, least: i64, greatest: i64) -> Vec<i64> {
    let next = |_| {
        *state ^= *state << 13;
        *state ^= *state >> 7;
        *state ^= *state << 17;
        least + (*state % (greatest - least + 1) as u64) as i64
    };
    (0..count).map(next).collect()
}

/// The same numbers in 32 bits.
fn narrow(row: Vec<i64>) -> Vec<i32> {
    row.into_iter().map(|x| x as i32).collect()
}

/// A random region of 0 to 4 faces. The ranges of components and offsets go with
/// the round, and so does whether its faces are square.
fn thrown_region(state: &mut u64, k: usize, round: usize) -> Thrown {
    let h = thrown(state, 1, 0, 4)[0] as usize;
    let (a, least_m, greatest_m) = match round % 7 {
        0 => (32_767, -LAST_OFFSET / 4, LAST_OFFSET / 8),
        1..=3 => (2, -9, 1),
        _ => (3, -25, 5),
    };
    let square = [true, false, false][round % 3];
    let mut normals = narrow(thrown(state, k * h, -a, a));
    for face in 0..h {
        let kept = thrown(state, 1, 0, k as i64 - 1)[0] as usize;
        for other in (0..k).filter(|&other| square && other != kept) {
            normals[face * k + other] = 0;
        }
    }
    let offsets = thrown(state, h, least_m, greatest_m);
    let marks = thrown(state, h, 0, 1);
    (
        normals,
        offsets,
        marks.into_iter().map(|mark| mark as u8).collect(),
    )
}

/// Random cases of 0 to 36 points and 1 to 6 regions, or all 64. Most have small
/// numbers, so that ties and points on faces are frequent; some are over the
/// whole ranges.
fn cases() -> Vec<Case> {
    let mut state = 101;
    let case = |round: usize| {
        let (k, n) = (1 + round % 4, round % 37);
        let regions = if round % 50 == 49 { 64 } else { 1 + round % 6 };
        let x = [32_767, 3, 3, 3, 9, 9, 9][round % 7];
        let points = narrow(thrown(&mut state, k * n, -x - 1, x));
        Case {
            k,
            order: arranged(k, &points),
            points,
            regions: (0..regions)
                .map(|_| thrown_region(&mut state, k, round))
                .collect(),
        }
    };
    (0..600).map(case).collect()
}

/// Region by region everything equals the list of that region alone.
#[test]
fn equal_to_the_list_alone() {
    for case in cases() {
        let given = done(&case.lent());
        assert_eq!(given.len(), case.regions.len());
        for (region, listed) in given.into_iter().enumerate() {
            assert_eq!(case.alone(region), (0, listed));
        }
    }
}

/// Region by region the inside numbers are those of the one-point test, in slot
/// order, the others stand backwards, and the visits are the open slots.
#[test]
fn equal_to_the_one_point_tests() {
    for case in cases() {
        let (k, n, points, order) = (case.k, case.order.len(), &case.points, &case.order);
        let given = done(&case.lent());
        for ((normals, offsets, marks), ([inside, outside, visits], places)) in
            case.regions().into_iter().zip(given)
        {
            let h = offsets.len();
            let within = |number: &u32| {
                let point = points.chunks(k).nth(*number as usize).unwrap();
                place(k, h, point, normals, offsets, marks).inside == 1
            };
            let (front, back): (Vec<u32>, Vec<u32>) = order.iter().partition(|p| within(p));
            assert_eq!(
                (inside as usize, outside as usize),
                (front.len(), back.len())
            );
            let backwards: Vec<u32> = back.into_iter().rev().collect();
            assert_eq!(places, [front, backwards].concat());
            let open =
                open_slots(k, n, h, points, &vec![1; n], order, normals, offsets, marks).unwrap();
            assert_eq!(visits as usize, open.iter().filter(|&&open| open).count());
        }
    }
}

/// Region by region the visits keep both bounds: the sum of the visits of each
/// face alone, and for square faces h times S.
#[test]
fn both_visit_bounds() {
    let mut square_regions = 0;
    for case in cases() {
        let (k, n, points, order) = (case.k, case.order.len(), &case.points, &case.order);
        let given = done(&case.lent());
        for ((normals, offsets, marks), ([_, _, visits], _)) in
            case.regions().into_iter().zip(given)
        {
            let h = offsets.len();
            let normal = |face: usize| &normals[face * k..(face + 1) * k];
            let of_face = |face: usize| {
                let (m, mark) = (offsets[face], marks[face]);
                visits_of_face(k, n, points, &vec![1; n], order, normal(face), m, mark).unwrap()
            };
            assert!(visits <= (0..h).map(of_face).sum::<u32>());
            if (0..h).all(|face| is_square(normal(face))) {
                square_regions += 1;
                assert!(u64::from(visits) <= h as u64 * s(n, k));
            }
        }
    }
    assert!(square_regions >= 500, "{square_regions}");
}

/// One call for all regions gives what two calls give, the first for some of them
/// and the second for the rest, wherever they are cut.
#[test]
fn one_call_equals_two() {
    for case in cases() {
        let regions = case.regions();
        let given = done(&case.lent());
        for cut in (1..regions.len()).step_by(1 + regions.len() / 7) {
            let (first, second) = regions.split_at(cut);
            let [first, second] = [first, second].map(|some| lent(case.k, &case.points, some));
            assert_eq!([done(&first), done(&second)].concat(), given);
        }
    }
}

/// A random face made bad, in a component, its offset or its mark: the whole call
/// is refused as the list of that region alone is, though it does the others.
#[test]
fn refused_as_the_bad_region_alone() {
    let mut state = 103;
    let mut refused = [0; 2];
    for mut case in cases() {
        let last = case.regions.len() as i64 - 1;
        let bad = thrown(&mut state, 1, 0, last)[0] as usize;
        let h = case.regions[bad].1.len();
        if h == 0 {
            continue;
        }
        let face = thrown(&mut state, 1, 0, h as i64 - 1)[0] as usize;
        let (normals, offsets, marks) = &mut case.regions[bad];
        match thrown(&mut state, 1, 0, 3)[0] {
            0 => normals[face * case.k] = -32_768,
            1 => offsets[face] = LAST_OFFSET + 1,
            _ => marks[face] = 2,
        }
        let (code, _) = case.alone(bad);
        refuses(&case.lent(), code);
        refused[usize::from(code == 11)] += 1;
        for other in (0..case.regions.len()).filter(|&other| other != bad) {
            assert_eq!(case.alone(other).0, 0);
        }
    }
    assert!(refused.iter().all(|&count| count >= 100), "{refused:?}");
}

/// Two slots of a random case changed over: 9, and nothing written.
#[test]
fn refused_with_two_slots_changed_over() {
    let mut state = 107;
    for case in cases().into_iter().filter(|case| case.order.len() > 1) {
        let n = case.order.len();
        let first = thrown(&mut state, 1, 0, n as i64 - 1)[0] as usize;
        let mut lent = case.lent();
        lent.order.swap(first, (first + 1) % n);
        refuses(&lent, 9);
    }
}

/// The random cases hold what they are made for: regions with no faces before
/// others that have some, mixed lists, visits, neighbours given different lists,
/// and calls of all 64 regions.
#[test]
fn cases_of_every_kind() {
    let mut seen = [0; 6];
    for case in cases() {
        let given = done(&case.lent());
        let h = |region: usize| case.regions[region].1.len();
        for (region, ([inside, outside, visits], places)) in given.iter().enumerate() {
            let next = given.get(region + 1);
            let kinds = [
                next.is_some() && h(region) == 0 && h(region + 1) > 0,
                next.is_some() && h(region) > 0 && h(region + 1) > 0,
                *inside > 0 && *outside > 0,
                *visits > 0,
                next.is_some_and(|(_, others)| others != places),
                given.len() == 64,
            ];
            for (count, kind) in seen.iter_mut().zip(kinds) {
                *count += u32::from(kind);
            }
        }
    }
    assert!(seen.iter().all(|&count| count >= 100), "{seen:?}");
}
