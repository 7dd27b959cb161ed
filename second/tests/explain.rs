//! Why a point is inside or outside, every point live: worked examples for each
//! reason, refusals, and random shelves against list, the open slots and a walk
//! from the root.

use second::{arrange, explain, list, open_slots, Explaining};

const A: [i32; 12] = [1, 5, 4, 2, 4, 8, 7, 1, 6, 6, 2, 2];
const TWO_NORMALS: [i32; 4] = [1, 1, -1, 0];
const TWO_OFFSETS: [i64; 2] = [7, -6];
const FURTHEST: i64 = 12_884_770_816;
const LAST_OFFSET: i64 = 8_589_934_592;

/// A region: normals, offsets and marks.
type Region<'a> = (&'a [i32], &'a [i64], &'a [u8]);

/// Arranges these points, which must be done, and gives the order.
fn arranged(k: usize, points: &[i32]) -> Vec<u32> {
    let n = points.len() / k;
    let mut order = vec![77; n];
    assert_eq!(arrange(k, n, points, &vec![1; n], &mut order).code, 0);
    order
}

/// Explains one number of a arranged shelf.
fn explained(k: usize, points: &[i32], region: Region, number: u32) -> Explaining {
    let (normals, offsets, marks) = region;
    let order = arranged(k, points);
    let (n, h) = (order.len(), offsets.len());
    let live = vec![1; n];
    explain(
        k, n, h, number, points, &live, &order, normals, offsets, marks,
    )
}

/// Explains the numbers of shelf A, in slot order: 1, 5, 0, 2, 3, 4.
fn explained_a(region: Region) -> Vec<Explaining> {
    let numbers = [1, 5, 0, 2, 3, 4];
    numbers.map(|p| explained(2, &A, region, p)).to_vec()
}

/// A done answer "inside, settled with a whole branch".
fn inside_with(slot: u16) -> Explaining {
    done(1, slot, 0, 0)
}

/// A done answer "inside by its own test".
fn inside_by_test(slot: u16) -> Explaining {
    done(2, slot, 0, 0)
}

/// A done answer "outside, settled with a whole branch below a face".
fn outside_with(slot: u16, face: u8, margin: i64) -> Explaining {
    done(3, slot, face, margin)
}

/// A done answer "outside by its own test".
fn outside_by_test(slot: u16, face: u8, margin: i64) -> Explaining {
    done(4, slot, face, margin)
}

/// A done answer.
fn done(reason: u8, slot: u16, face: u8, margin: i64) -> Explaining {
    Explaining {
        code: 0,
        reason,
        face,
        slot,
        margin,
    }
}

/// Shelf A with its two faces. Only slot 0 is settled, a branch of one slot (box
/// x 1..4, y 1..2) wholly below face 0; all others go by their own test.
#[test]
fn two_faces() {
    let answers = [
        outside_with(0, 0, -1),
        outside_by_test(1, 0, -3),
        outside_by_test(2, 0, -1),
        inside_by_test(3),
        outside_by_test(4, 1, -1),
        inside_by_test(5),
    ];
    assert_eq!(explained_a((&TWO_NORMALS, &TWO_OFFSETS, &[0, 0])), answers);
}

/// The same with face 1 open: number 4, which lies on it, is now outside by its
/// own test with margin 0. An open face 0 changes nothing, since no sum is 7.
#[test]
fn two_faces_one_open() {
    let closed = explained_a((&TWO_NORMALS, &TWO_OFFSETS, &[0, 0]));
    let first_open = explained_a((&TWO_NORMALS, &TWO_OFFSETS, &[1, 0]));
    let second_open = explained_a((&TWO_NORMALS, &TWO_OFFSETS, &[0, 1]));
    assert_eq!(first_open, closed);
    assert_eq!(second_open[..5], closed[..5]);
    assert_eq!(second_open[5], outside_by_test(5, 1, 0));
}

/// Shelf A with face (1, 0), m 5. The left branch, x 1..4, is wholly below; its
/// node slot 1 is named for all three, and each has its own margin.
#[test]
fn left_branch_outside() {
    let answers = [
        outside_with(1, 0, -1),
        outside_with(1, 0, -3),
        outside_with(1, 0, -4),
        outside_by_test(3, 0, -1),
        inside_by_test(4),
        inside_by_test(5),
    ];
    assert_eq!(explained_a((&[1, 0], &[5], &[0])), answers);
    assert_eq!(explained_a((&[1, 0], &[5], &[1])), answers);
}

/// Shelf A with the closed face (1, 0), m 4. The right branch, x 4..7, touches it
/// and is wholly above; numbers 1 and 2 lie on it and are inside by their test.
#[test]
fn right_branch_inside() {
    let answers = [
        inside_by_test(0),
        outside_by_test(1, 0, -2),
        outside_by_test(2, 0, -3),
        inside_by_test(3),
        inside_with(5),
        inside_with(5),
    ];
    assert_eq!(explained_a((&[1, 0], &[4], &[0])), answers);
}

/// The same face open: the left branch, x 1..4, touches it and is wholly below,
/// so that number 1 is outside with margin 0, and the right branch is open.
#[test]
fn left_branch_on_an_open_face() {
    let answers = [
        outside_with(1, 0, 0),
        outside_with(1, 0, -2),
        outside_with(1, 0, -3),
        outside_by_test(3, 0, 0),
        inside_by_test(4),
        inside_by_test(5),
    ];
    assert_eq!(explained_a((&[1, 0], &[4], &[1])), answers);
}

/// That face twice, once closed and once open. The open one is named wherever it
/// stands, even for numbers 5 and 0, which are below both: their box is not.
#[test]
fn one_face_with_both_marks() {
    for (marks, face) in [([0, 1], 1), ([1, 0], 0), ([1, 1], 0)] {
        let answers = [
            outside_with(1, face, 0),
            outside_with(1, face, -2),
            outside_with(1, face, -3),
            outside_by_test(3, face, 0),
            inside_by_test(4),
            inside_by_test(5),
        ];
        assert_eq!(explained_a((&[1, 0, 1, 0], &[4, 4], &marks)), answers);
    }
}

/// Shelf A with face (0, -1), m -2, and two branches of one slot: slot 0, y 1..2,
/// is wholly above it closed, slot 2, y 2..8, is wholly below it open.
#[test]
fn branches_of_one_slot() {
    let closed = [
        inside_with(0),
        inside_by_test(1),
        outside_by_test(2, 0, -3),
        outside_by_test(3, 0, -6),
        inside_by_test(4),
        outside_by_test(5, 0, -4),
    ];
    let open = [
        outside_by_test(0, 0, 0),
        outside_by_test(1, 0, 0),
        outside_with(2, 0, -3),
        outside_by_test(3, 0, -6),
        inside_by_test(4),
        outside_by_test(5, 0, -4),
    ];
    assert_eq!(explained_a((&[0, -1], &[-2], &[0])), closed);
    assert_eq!(explained_a((&[0, -1], &[-2], &[1])), open);
}

/// Shelf A with faces (1, 1), m 7 and (1, 0), m 5. The left branch is wholly
/// below face 1 alone, and so that is named, though its three points are below
/// face 0 too and slot 0, further from the root, is wholly below face 0.
#[test]
fn nearest_the_root_and_its_own_face() {
    let answers = [
        outside_with(1, 1, -1),
        outside_with(1, 1, -3),
        outside_with(1, 1, -4),
        outside_by_test(3, 1, -1),
        inside_by_test(4),
        inside_by_test(5),
    ];
    assert_eq!(explained_a((&[1, 1, 1, 0], &[7, 5], &[0, 0])), answers);
}

/// The root settled: one answer for all but the margins, at slot 3.
#[test]
fn settled_root() {
    let xs = [4, 2, 1, 4, 7, 6];
    let below = xs.map(|x| outside_with(3, 0, x - 8));
    assert_eq!(explained_a((&[1, 0], &[1], &[0])), [inside_with(3); 6]);
    assert_eq!(explained_a((&[1, 0], &[0], &[1])), [inside_with(3); 6]);
    assert_eq!(explained_a((&[1, 0], &[8], &[0])), below);
    assert_eq!(explained_a((&[1, 0], &[8], &[1])), below);
}

/// A zero normal settles the root, by its offset and its mark.
#[test]
fn zero_normal() {
    assert_eq!(explained_a((&[0, 0], &[0], &[0])), [inside_with(3); 6]);
    let on = [outside_with(3, 0, 0); 6];
    assert_eq!(explained_a((&[0, 0], &[0], &[1])), on);
    let under = [outside_with(3, 0, -1); 6];
    assert_eq!(explained_a((&[0, 0], &[1], &[0])), under);
}

/// With no faces the reason is 1 at the root's slot, for every number.
#[test]
fn no_faces() {
    assert_eq!(explained_a((&[], &[], &[])), [inside_with(3); 6]);
    for n in 1..=9u32 {
        let points: Vec<i32> = (0..n as i32).collect();
        for number in 0..n {
            let answer = explained(1, &points, (&[], &[], &[]), number);
            assert_eq!(answer, inside_with(n as u16 / 2));
        }
    }
}

/// Several faces below which the box is: the lowest-numbered one is named, not
/// the one with the least margin, and a face it is above is passed over.
#[test]
fn lowest_face_of_the_box() {
    let region: Region = (&[1, 0, 1, 0, 1, 0], &[1, 8, 20], &[0, 0, 0]);
    let xs = [4, 2, 1, 4, 7, 6];
    assert_eq!(explained_a(region), xs.map(|x| outside_with(3, 1, x - 8)));
    let region: Region = (&[1, 0, 1, 0], &[20, 8], &[0, 0]);
    assert_eq!(explained_a(region), xs.map(|x| outside_with(3, 0, x - 20)));
    let region: Region = (&[1, 0, 1, 0], &[8, 8], &[1, 0]);
    assert_eq!(explained_a(region), xs.map(|x| outside_with(3, 0, x - 8)));
}

/// Several faces below which the point is: the lowest-numbered one is named.
/// Numbers 0 and 1 of the shelf 0, 10 both have the box 0..10, which is open.
#[test]
fn lowest_face_of_the_point() {
    let asked = |offsets: &[i64]| {
        let (normals, marks) = (vec![1; offsets.len()], vec![0; offsets.len()]);
        explained(1, &[0, 10], (&normals, offsets, &marks), 0)
    };
    assert_eq!(asked(&[5]), outside_by_test(0, 0, -5));
    assert_eq!(asked(&[5, 9]), outside_by_test(0, 0, -5));
    assert_eq!(asked(&[9, 5]), outside_by_test(0, 0, -9));
    assert_eq!(asked(&[5, 5]), outside_by_test(0, 0, -5));
    assert_eq!(asked(&[0, 9, 5]), outside_by_test(0, 1, -9));
    let other = explained(1, &[0, 10], (&[1], &[5], &[0]), 1);
    assert_eq!(other, inside_by_test(1));
}

/// Equal coordinates: all three points 3, 3, 3 go with the root, slot 1.
#[test]
fn equal_points() {
    for number in 0..3 {
        let closed = explained(1, &[3, 3, 3], (&[1], &[3], &[0]), number);
        assert_eq!(closed, inside_with(1));
        let open = explained(1, &[3, 3, 3], (&[1], &[3], &[1]), number);
        assert_eq!(open, outside_with(1, 0, 0));
    }
}

/// One point: its box is a single corner, so it goes with the whole branch.
#[test]
fn one_point() {
    let two: Region = (&TWO_NORMALS, &TWO_OFFSETS, &[0, 0]);
    assert_eq!(explained(2, &[4, 2], two, 0), outside_with(0, 0, -1));
    assert_eq!(explained(2, &[5, 2], two, 0), inside_with(0));
    assert_eq!(explained(2, &[7, 2], two, 0), outside_with(0, 1, -1));
    assert_eq!(explained(2, &[4, 2], (&[], &[], &[]), 0), inside_with(0));
    let open: Region = (&TWO_NORMALS, &TWO_OFFSETS, &[1, 1]);
    assert_eq!(explained(2, &[5, 2], open, 0), outside_with(0, 0, 0));
    assert_eq!(explained(2, &[6, 2], open, 0), outside_with(0, 1, 0));
}

/// The furthest margin of all, with a whole branch, and the furthest by a point's
/// own test, where another point on the face keeps the box open.
#[test]
fn furthest_margins() {
    let low = [-32_768; 4];
    let region: Region = (&[32_767; 4], &[LAST_OFFSET], &[0]);
    assert_eq!(explained(4, &low, region, 0), outside_with(0, 0, -FURTHEST));
    let points = [low, [32_767; 4]].concat();
    let region: Region = (&[32_767; 4], &[4_294_705_156], &[0]);
    let answer = explained(4, &points, region, 0);
    assert_eq!(answer, outside_by_test(0, 0, -8_589_541_380));
    assert_eq!(explained(4, &points, region, 1), inside_by_test(1));
}

/// The last of 32 faces is named where the others are above.
#[test]
fn last_face() {
    let mut offsets = [0; 32];
    offsets[31] = 5;
    let region: Region = (&[1; 32], &offsets, &[0; 32]);
    assert_eq!(explained(1, &[3], region, 0), outside_with(0, 31, -2));
    let answer = explained(1, &[0, 10], region, 0);
    assert_eq!(answer, outside_by_test(0, 31, -5));
}

/// A full shelf of one dimension. The last slot, 65,534, is a branch of one slot
/// with the box 32,765..32,766, its parent's node on the lower side.
#[test]
fn last_slot() {
    let points: Vec<i32> = (-32_768..=32_766).collect();
    let asked = |m, number| explained(1, &points, (&[1], &[m], &[0]), number);
    assert_eq!(asked(32_765, 65_534), inside_with(65_534));
    assert_eq!(asked(32_766, 65_534), inside_by_test(65_534));
    assert_eq!(asked(32_766, 65_533), outside_by_test(65_533, 0, -1));
    assert_eq!(asked(32_766, 0), outside_with(16_383, 0, -65_534));
    assert_eq!(asked(-32_768, 65_534), inside_with(32_767));
}

/// Later places of the order are not read.
#[test]
fn later_places_are_not_read() {
    for later in [0, 1, 2, u32::MAX] {
        let order = [0, 1, later];
        let answer = explain(1, 2, 1, 0, &[0, 10], &[1; 2], &order, &[1], &[5], &[0]);
        assert_eq!(answer, outside_by_test(0, 0, -5));
    }
}

/// The arguments of an explain call, all right at first.
struct Lent {
    k: usize,
    n: usize,
    h: usize,
    number: u32,
    points: Vec<i32>,
    live: Vec<u8>,
    order: Vec<u32>,
    normals: Vec<i32>,
    offsets: Vec<i64>,
    marks: Vec<u8>,
}

/// A right call: two points of one dimension, one face, and the last number.
fn right() -> Lent {
    Lent {
        k: 1,
        n: 2,
        h: 1,
        number: 1,
        points: vec![0, 10],
        live: vec![1; 2],
        order: vec![0, 1, 70],
        normals: vec![1],
        offsets: vec![5],
        marks: vec![0],
    }
}

/// Calls explain with these arguments.
fn called(lent: &Lent) -> Explaining {
    explain(
        lent.k,
        lent.n,
        lent.h,
        lent.number,
        &lent.points,
        &lent.live,
        &lent.order,
        &lent.normals,
        &lent.offsets,
        &lent.marks,
    )
}

/// Asks that explain refuses with this number and zeros.
fn refuses(lent: &Lent, code: u32) {
    let zeros = Explaining::default();
    assert_eq!(called(lent), Explaining { code, ..zeros });
}

/// A change that brings one refusal about.
type Break = (u32, fn(&mut Lent));

/// Breaks for each number, in the call's order from the last test to the first:
/// 17, then 9, then 11, then 8 down to 4, then 15, then 3 down to 1.
const BREAKS: [Break; 20] = [
    (17, |lent| lent.number = 2),
    (17, |lent| lent.number = u32::MAX),
    (9, |lent| lent.order[1] = 0),
    (9, |lent| lent.order[0] = 2),
    (11, |lent| lent.marks.push(0)),
    (11, |lent| lent.marks = vec![2]),
    (8, |lent| lent.offsets[0] = LAST_OFFSET + 1),
    (8, |lent| lent.normals[0] = -32_768),
    (7, |lent| lent.normals.push(0)),
    (7, |lent| lent.offsets.push(0)),
    (6, |lent| lent.h = 33),
    (5, |lent| lent.points[0] = -32_769),
    (5, |lent| lent.points[1] = 32_768),
    (4, |lent| lent.order.truncate(1)),
    (15, |lent| lent.live.push(1)),
    (15, |lent| lent.live[0] = 2),
    (3, |lent| lent.points.push(0)),
    (2, |lent| lent.n = 65_536),
    (1, |lent| lent.k = 5),
    (1, |lent| lent.k = 0),
];

/// Each break alone: its own number. The call that they start from is right.
#[test]
fn refuses_each_alone() {
    assert_eq!(called(&right()), inside_by_test(1));
    for (code, change) in BREAKS {
        let mut lent = right();
        change(&mut lent);
        refuses(&lent, code);
    }
}

/// Any two breaks together: the number that comes first in the call's order.
#[test]
fn refuses_the_first_of_two() {
    for (place, (_, late)) in BREAKS.into_iter().enumerate() {
        for (code, early) in BREAKS.into_iter().skip(place + 1) {
            let mut lent = right();
            late(&mut lent);
            early(&mut lent);
            refuses(&lent, code);
        }
    }
}

/// All breaks heaped up from the last test to the first: always the first in the
/// call's order so far.
#[test]
fn refuses_in_its_order() {
    let mut lent = right();
    for (code, change) in BREAKS {
        change(&mut lent);
        refuses(&lent, code);
    }
}

/// The empty shelf has no number to ask about: 17, after every other refusal.
#[test]
fn empty_shelf() {
    let zeros = Explaining::default();
    let refusal = |code| Explaining { code, ..zeros };
    for number in [0, 1, u32::MAX] {
        let answer = explain(2, 0, 0, number, &[], &[], &[], &[], &[], &[]);
        assert_eq!(answer, refusal(17));
        let answer = explain(1, 0, 1, number, &[], &[], &[7], &[1], &[5], &[1]);
        assert_eq!(answer, refusal(17));
        let answer = explain(1, 0, 1, number, &[], &[], &[7], &[1], &[5], &[2]);
        assert_eq!(answer, refusal(11));
    }
}

/// The greatest counts of all neither overflow nor panic.
#[test]
fn greatest_counts_are_refused() {
    let most = usize::MAX;
    let code = |k, n, h| explain(k, n, h, u32::MAX, &[], &[], &[], &[], &[], &[]).code;
    assert_eq!(code(most, most, most), 1);
    assert_eq!(code(4, most, most), 2);
    assert_eq!(code(4, 0, most), 6);
    assert_eq!(code(4, 0, most / 4 + 1), 6);
}

/// One random case: a shelf with its arranged order and a region.
struct Case {
    k: usize,
    points: Vec<i32>,
    order: Vec<u32>,
    normals: Vec<i32>,
    offsets: Vec<i64>,
    marks: Vec<u8>,
}

impl Case {
    /// The number of points and the number of faces.
    fn counts(&self) -> (usize, usize) {
        (self.order.len(), self.offsets.len())
    }

    /// The answer for this number, which must be done.
    fn explained(&self, number: u32) -> Explaining {
        let ((n, h), points, order) = (self.counts(), &self.points, &self.order);
        let (normals, offsets, marks) = (&self.normals, &self.offsets, &self.marks);
        let live = &vec![1; n];
        let answer = explain(
            self.k, n, h, number, points, live, order, normals, offsets, marks,
        );
        assert_eq!(answer.code, 0);
        answer
    }

    /// The inside numbers of list, and its visits.
    fn listed(&self) -> (Vec<u32>, u32) {
        let ((n, h), points, order) = (self.counts(), &self.points, &self.order);
        let (normals, offsets, marks) = (&self.normals, &self.offsets, &self.marks);
        let (live, mut places) = (&vec![1; n], vec![88; n]);
        let lent = &mut places;
        let answer = list(
            self.k, n, h, points, live, order, normals, offsets, marks, lent,
        );
        assert_eq!(answer.code, 0);
        (places[..answer.inside as usize].to_vec(), answer.visits)
    }

    /// For each slot whether its branch is open.
    fn open(&self) -> Vec<bool> {
        let ((n, h), points, order) = (self.counts(), &self.points, &self.order);
        let (normals, offsets, marks) = (&self.normals, &self.offsets, &self.marks);
        let live = &vec![1; n];
        open_slots(self.k, n, h, points, live, order, normals, offsets, marks).unwrap()
    }

    /// The coordinates of the point of this number.
    fn point(&self, number: u32) -> &[i32] {
        self.points.chunks(self.k).nth(number as usize).unwrap()
    }

    /// The distance number of these coordinates from the face, summed up here.
    fn distance(&self, face: usize, x: &[i32]) -> i64 {
        let normal = self.normals.chunks(self.k).nth(face).unwrap();
        let products = normal.iter().zip(x);
        let sum: i64 = products.map(|(&a, &x)| i64::from(a) * i64::from(x)).sum();
        sum - self.offsets[face]
    }

    /// Whether these coordinates are below the face.
    fn below(&self, face: usize, x: &[i32]) -> bool {
        let distance = self.distance(face, x);
        distance < 0 || distance == 0 && self.marks[face] == 1
    }
}

/// So many numbers that look random, from `least` to `greatest`.
fn thrown(state: &mut u64, count: usize, least: i64, greatest: i64) -> Vec<i64> {
    let next = |_| {
        *state ^= *state << 13;
        *state ^= *state >> 7;
        *state ^= *state << 17;
        least + (*state % (greatest - least + 1) as u64) as i64
    };
    (0..count).map(next).collect()
}

/// The same numbers in 32 bits.
fn narrow(row: Vec<i64>) -> Vec<i32> {
    row.into_iter().map(|x| x as i32).collect()
}

/// Random cases of 0 to 36 points and 0 to 4 faces. Most have small numbers, so
/// that ties and points on faces are frequent; some are over the whole ranges.
fn cases() -> Vec<Case> {
    let mut state = 97;
    let case = |round: usize| {
        let (k, n, h) = (1 + round % 4, round % 37, round % 5);
        let (x, a, least_m, greatest_m) = match round % 7 {
            0 => (32_767, 32_767, -LAST_OFFSET / 4, LAST_OFFSET / 8),
            1..=3 => (3, 2, -9, 1),
            _ => (9, 3, -25, 5),
        };
        let points = narrow(thrown(&mut state, k * n, -x - 1, x));
        let marks = thrown(&mut state, h, 0, 1);
        Case {
            k,
            order: arranged(k, &points),
            points,
            normals: narrow(thrown(&mut state, k * h, -a, a)),
            offsets: thrown(&mut state, h, least_m, greatest_m),
            marks: marks.into_iter().map(|mark| mark as u8).collect(),
        }
    };
    (0..900).map(case).collect()
}

/// The branches that hold this slot, from the root down to the slot's own: the
/// first slot, the slot after the last, and the node's.
fn branches_down_to(n: usize, slot: usize) -> Vec<[usize; 3]> {
    let (mut first, mut after) = (0, n);
    let mut branches = Vec::new();
    loop {
        let node = first + (after - first) / 2;
        branches.push([first, after, node]);
        match slot.cmp(&node) {
            std::cmp::Ordering::Less => after = node,
            std::cmp::Ordering::Equal => return branches,
            std::cmp::Ordering::Greater => first = node + 1,
        }
    }
}

/// Calls a check for each number of each random case, with its own slot.
fn for_each_number(check: impl Fn(&Case, u32, usize)) {
    for case in cases() {
        for (slot, &number) in case.order.iter().enumerate() {
            check(&case, number, slot);
        }
    }
}

/// The reason says inside exactly if the number is among the inside list.
#[test]
fn inside_exactly_as_listed() {
    for case in cases() {
        let (within, _) = case.listed();
        for &number in &case.order {
            let reason = case.explained(number).reason;
            assert!((1..=4).contains(&reason));
            assert_eq!(reason <= 2, within.contains(&number));
        }
    }
}

/// As many numbers go by their own test as the list has visits.
#[test]
fn own_tests_are_the_visits() {
    for case in cases() {
        let (_, visits) = case.listed();
        let reasons = case.order.iter().map(|&p| case.explained(p).reason);
        let tested = reasons.filter(|&reason| reason == 2 || reason == 4).count();
        assert_eq!(tested as u32, visits);
    }
}

/// For reasons 1 and 3 the slot names a branch that holds the number and is
/// settled, with every branch above it open.
#[test]
fn branch_named_is_the_nearest_to_the_root() {
    for case in cases() {
        let open = case.open();
        for (slot, &number) in case.order.iter().enumerate() {
            let answer = case.explained(number);
            if answer.reason == 2 || answer.reason == 4 {
                continue;
            }
            let nodes = branches_down_to(case.order.len(), slot);
            let first = nodes.iter().find(|branch| !open[branch[2]]).unwrap();
            assert_eq!(usize::from(answer.slot), first[2]);
        }
    }
}

/// For reasons 1 and 3 every number of the branch named gets the same list, and
/// the same reason, slot and face.
#[test]
fn whole_branch_on_one_list() {
    for case in cases() {
        let (within, _) = case.listed();
        for &number in &case.order {
            let answer = case.explained(number);
            if answer.reason == 2 || answer.reason == 4 {
                continue;
            }
            let node = usize::from(answer.slot);
            let branches = branches_down_to(case.order.len(), node);
            let [first, after, _] = *branches.last().unwrap();
            for other in &case.order[first..after] {
                assert_eq!(within.contains(other), answer.reason == 1);
                let margin = case.explained(*other).margin;
                assert_eq!(case.explained(*other), Explaining { margin, ..answer });
            }
        }
    }
}

/// For reasons 2 and 4 the slot is the number's own, and its branch and all
/// above it are open.
#[test]
fn own_test_only_where_all_is_open() {
    for case in cases() {
        let open = case.open();
        for (slot, &number) in case.order.iter().enumerate() {
            let answer = case.explained(number);
            if answer.reason == 2 || answer.reason == 4 {
                assert_eq!(usize::from(answer.slot), slot);
                let branches = branches_down_to(case.order.len(), slot);
                assert!(branches.iter().all(|branch| open[branch[2]]));
            }
        }
    }
}

/// Inside has face 0 and margin 0. Outside has the point's distance number from
/// the face named, and the point is below that face; for reason 4 it is below no
/// lower-numbered one.
#[test]
fn face_and_margin_of_the_point() {
    for_each_number(|case, number, _| {
        let answer = case.explained(number);
        let (face, x) = (usize::from(answer.face), case.point(number));
        if answer.reason <= 2 {
            assert_eq!((face, answer.margin), (0, 0));
            return;
        }
        assert_eq!(answer.margin, case.distance(face, x));
        assert!(case.below(face, x) && answer.margin <= 0);
        if answer.reason == 4 {
            assert!((0..face).all(|lower| !case.below(lower, x)));
        }
    });
}

/// All corners of a box, one for each choice of a least or greatest coordinate.
fn corners(least: &[i32], greatest: &[i32]) -> Vec<Vec<i32>> {
    let k = least.len();
    let corner = |choice: usize| {
        let pick = |s: usize| [least[s], greatest[s]][choice >> s & 1];
        (0..k).map(pick).collect()
    };
    (0..1 << k).map(corner).collect()
}

/// The whole answer by a walk from the root to the number, with the box's sides
/// moved on the way and all its corners tried against each face.
fn walked(case: &Case, number: u32, slot: usize) -> Explaining {
    let (n, h) = case.counts();
    let x = case.point(number);
    let column = |s: usize| case.points.chunks(case.k).map(move |point| point[s]);
    let mut least: Vec<i32> = (0..case.k).map(|s| column(s).min().unwrap()).collect();
    let mut greatest: Vec<i32> = (0..case.k).map(|s| column(s).max().unwrap()).collect();
    for (depth, [_, _, node]) in branches_down_to(n, slot).into_iter().enumerate() {
        let corners = corners(&least, &greatest);
        let all_below = |&face: &usize| corners.iter().all(|corner| case.below(face, corner));
        let any_below = |face: usize| corners.iter().any(|corner| case.below(face, corner));
        if let Some(face) = (0..h).find(all_below) {
            return outside_with(node as u16, face as u8, case.distance(face, x));
        }
        if !(0..h).any(any_below) {
            return inside_with(node as u16);
        }
        let s = depth % case.k;
        let side = case.point(case.order[node])[s];
        match slot < node {
            true => greatest[s] = side,
            false => least[s] = side,
        }
    }
    match (0..h).find(|&face| case.below(face, x)) {
        Some(face) => outside_by_test(slot as u16, face as u8, case.distance(face, x)),
        None => inside_by_test(slot as u16),
    }
}

/// Every answer equals that of the walk.
#[test]
fn answers_equal_the_walk() {
    for_each_number(|case, number, slot| {
        assert_eq!(case.explained(number), walked(case, number, slot));
    });
}

/// The random cases hold what they are made for: each reason, branches of one
/// slot and of more, margins of 0, faces other than the first, and a point below
/// a lower-numbered face than the one its branch is below.
#[test]
fn cases_of_every_kind() {
    let seen = std::cell::RefCell::new([0; 10]);
    for_each_number(|case, number, slot| {
        let answer = case.explained(number);
        let (face, node) = (usize::from(answer.face), usize::from(answer.slot));
        let branches = branches_down_to(case.order.len(), node);
        let [first, after, _] = *branches.last().unwrap();
        let whole = answer.reason == 1 || answer.reason == 3;
        let x = case.point(number);
        let kinds = [
            answer.reason == 1,
            answer.reason == 2,
            answer.reason == 3,
            answer.reason == 4,
            whole && after - first == 1,
            whole && after - first > 1 && node == slot,
            whole && node != slot,
            answer.reason > 2 && answer.margin == 0,
            face > 0,
            answer.reason == 3 && (0..face).any(|lower| case.below(lower, x)),
        ];
        for (count, kind) in seen.borrow_mut().iter_mut().zip(kinds) {
            *count += u32::from(kind);
        }
    });
    let seen = seen.into_inner();
    assert!(seen.iter().all(|&count| count >= 100), "{seen:?}");
}
