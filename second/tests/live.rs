//! Dead numbers in every call on a shelf: worked examples, refusals, and random
//! shelves against the same shelves without their dead points.

use second::{arrange, explain, is_square, list, list_regions, open_slots, s, screen};
use second::{visits_of_face, Arranging, Explaining, Listing, Screening};

const A: [i32; 12] = [1, 5, 4, 2, 4, 8, 7, 1, 6, 6, 2, 2];

/// Coordinates that a dead number may have: the ends of 32 bits and both sides of
/// both limits among them.
const ANY: [i32; 8] = [i32::MIN, -32_769, -32_768, -1, 0, 32_767, 32_768, i32::MAX];

/// The arguments of all calls on one shelf, with what their buffers hold before:
/// `room` is lent to arrange alone and `order` to all calls. The list of several
/// regions has two: this one, then one with no faces.
#[derive(Clone)]
struct Lent {
    k: usize,
    n: usize,
    points: Vec<i32>,
    live: Vec<u8>,
    order: Vec<u32>,
    normals: Vec<i32>,
    offsets: Vec<i64>,
    marks: Vec<u8>,
    room: Vec<u32>,
    list: Vec<u32>,
    lists: Vec<u32>,
    counts: Vec<u32>,
}

/// What all calls on one shelf answer, with their buffers afterwards: arrange for
/// `room` and again for `order`, explain for every number below n and the two after.
#[derive(Clone, Debug, PartialEq)]
struct Answers {
    arrange: (Arranging, Vec<u32>),
    again: (Arranging, Vec<u32>),
    list: (Listing, Vec<u32>),
    screen: Screening,
    explain: Vec<Explaining>,
    list_regions: (u32, Vec<u32>, Vec<u32>),
    open: Result<Vec<bool>, u32>,
}

/// The numbers whose live byte is 1.
fn live_numbers(live: &[u8]) -> Vec<u32> {
    let all = 0..live.len() as u32;
    all.filter(|&number| live[number as usize] == 1).collect()
}

/// The calls for this shelf with its arranged order, which must be done, and this
/// region, every face closed. Every buffer has more places than it needs.
fn lent(k: usize, points: &[i32], live: &[u8], normals: &[i32], offsets: &[i64]) -> Lent {
    let n = live.len();
    let mut order = vec![70; n + 1];
    assert_eq!(arrange(k, n, points, live, &mut order).code, 0);
    Lent {
        k,
        n,
        points: points.to_vec(),
        live: live.to_vec(),
        order,
        normals: normals.to_vec(),
        offsets: offsets.to_vec(),
        marks: vec![0; offsets.len()],
        room: vec![77; n + 1],
        list: vec![88; n + 1],
        lists: vec![89; 2 * n + 1],
        counts: vec![99; 7],
    }
}

impl Lent {
    /// The answer of arrange for this order, and the order afterwards.
    fn arranged(&self, order: &[u32]) -> (Arranging, Vec<u32>) {
        let mut order = order.to_vec();
        let answer = arrange(self.k, self.n, &self.points, &self.live, &mut order);
        (answer, order)
    }

    /// Asks that arrange says that the order already was the tree, and writes
    /// nothing.
    fn is_arranged(&self) {
        let already = Arranging {
            code: 0,
            already: 1,
        };
        assert_eq!(self.arranged(&self.order), (already, self.order.clone()));
    }

    /// The answer of list, and its buffer afterwards.
    fn listed(&self) -> (Listing, Vec<u32>) {
        let mut buffer = self.list.clone();
        let answer = list(
            self.k,
            self.n,
            self.offsets.len(),
            &self.points,
            &self.live,
            &self.order,
            &self.normals,
            &self.offsets,
            &self.marks,
            &mut buffer,
        );
        (answer, buffer)
    }

    /// The answer of screen.
    fn screened(&self) -> Screening {
        screen(
            self.k,
            self.n,
            self.offsets.len(),
            &self.points,
            &self.live,
            &self.order,
            &self.normals,
            &self.offsets,
            &self.marks,
        )
    }

    /// The answer of explain for this number.
    fn explained(&self, number: u32) -> Explaining {
        explain(
            self.k,
            self.n,
            self.offsets.len(),
            number,
            &self.points,
            &self.live,
            &self.order,
            &self.normals,
            &self.offsets,
            &self.marks,
        )
    }

    /// The answer of the list of both regions, and its buffers afterwards.
    fn listed_regions(&self) -> (u32, Vec<u32>, Vec<u32>) {
        let (mut lists, mut counts) = (self.lists.clone(), self.counts.clone());
        let code = list_regions(
            self.k,
            self.n,
            2,
            &self.points,
            &self.live,
            &self.order,
            &[self.offsets.len() as u32, 0],
            &self.normals,
            &self.offsets,
            &self.marks,
            &mut lists,
            &mut counts,
        );
        (code, lists, counts)
    }

    /// For each slot whether its branch is open.
    fn open(&self) -> Result<Vec<bool>, u32> {
        open_slots(
            self.k,
            self.n,
            self.offsets.len(),
            &self.points,
            &self.live,
            &self.order,
            &self.normals,
            &self.offsets,
            &self.marks,
        )
    }

    /// The answers of all calls.
    fn answers(&self) -> Answers {
        let numbers = 0..self.n as u32 + 2;
        Answers {
            arrange: self.arranged(&self.room),
            again: self.arranged(&self.order),
            list: self.listed(),
            screen: self.screened(),
            explain: numbers.map(|number| self.explained(number)).collect(),
            list_regions: self.listed_regions(),
            open: self.open(),
        }
    }

    /// Asks that all calls refuse with this number, with zeros and nothing
    /// written. Where it is 9, arrange does not: it makes the order the tree.
    fn refuses(&self, code: u32) {
        let refusal = Arranging { code, already: 0 };
        let (arrange, again) = match code {
            9 => (self.arranged(&self.room), self.made_tree()),
            _ => ((refusal, self.room.clone()), (refusal, self.order.clone())),
        };
        let (listing, screening) = (Listing::default(), Screening::default());
        let refusal = Answers {
            arrange,
            again,
            list: (Listing { code, ..listing }, self.list.clone()),
            screen: Screening { code, ..screening },
            explain: vec![not_explained(code); self.n + 2],
            list_regions: (code, self.lists.clone(), self.counts.clone()),
            open: Err(code),
        };
        assert_eq!(self.answers(), refusal);
    }

    /// What arrange gives for an order that is not the tree: the tree of `room`
    /// in the first v places, the later ones as they were.
    fn made_tree(&self) -> (Arranging, Vec<u32>) {
        let v = live_numbers(&self.live).len();
        let tree = &self.arranged(&self.room).1[..v];
        (Arranging::default(), [tree, &self.order[v..]].concat())
    }
}

/// A refusal of explain.
fn not_explained(code: u32) -> Explaining {
    Explaining {
        code,
        ..Explaining::default()
    }
}

/// A done answer of explain.
fn explained(reason: u8, slot: u16, margin: i64) -> Explaining {
    Explaining {
        code: 0,
        reason,
        face: 0,
        slot,
        margin,
    }
}

/// A done answer of list.
fn done(inside: u32, outside: u32, visits: u32) -> Listing {
    Listing {
        code: 0,
        inside,
        outside,
        visits,
    }
}

/// Points 0 and 10, order 0 1, number 1 withdrawn: the order still passes, since
/// its first place alone is asked. The root box is 0..0, wholly below the face.
#[test]
fn second_of_two_withdrawn() {
    let mut two = lent(1, &[0, 10], &[1, 0], &[1], &[5]);
    two.order = vec![0, 1];
    two.is_arranged();
    assert_eq!(two.listed(), (done(0, 1, 0), vec![0, 88, 88]));
    assert_eq!(two.screened(), Screening::default());
    assert_eq!(two.explained(0), explained(3, 0, -5));
    assert_eq!(two.explained(1), not_explained(17));
    let lists = vec![0, 0, 89, 89, 89];
    let counts = vec![0, 1, 0, 1, 0, 0, 99];
    assert_eq!(two.listed_regions(), (0, lists, counts));
}

/// The same with number 0 withdrawn: the first place holds a dead number, which
/// is 9; with 1 there the order passes.
#[test]
fn first_of_two_withdrawn() {
    let mut two = lent(1, &[0, 10], &[0, 1], &[1], &[5]);
    two.order = vec![0, 1];
    two.refuses(9);
    two.order = vec![1, 0];
    two.is_arranged();
    assert_eq!(two.listed(), (done(1, 0, 0), vec![1, 88, 88]));
    assert_eq!(two.screened().number, 1);
    assert_eq!(two.explained(0), not_explained(17));
    assert_eq!(two.explained(1), explained(1, 0, 0));
}

/// Shelf A without number 3, (7, 1), and face (1, 0), m 5. The root box is x
/// 1..6, y 2..8; slots 2, 3 and 4 are open, and the left branch, x 1..4, is
/// wholly below.
#[test]
fn shelf_a_without_number_3() {
    let a = lent(2, &A, &[1, 1, 1, 0, 1, 1], &[1, 0], &[5]);
    let answers = a.answers();
    let tree = vec![5, 0, 1, 4, 2, 77, 77];
    assert_eq!(answers.arrange, (Arranging::default(), tree));
    a.is_arranged();
    let places = vec![4, 2, 1, 0, 5, 88, 88];
    assert_eq!(answers.list, (done(1, 4, 3), places));
    let screening = answers.screen;
    let found = (screening.found, screening.number, screening.visits);
    assert_eq!(found, (1, 4, 2));
    let reasons = [
        explained(3, 1, -4),
        explained(4, 2, -1),
        explained(4, 4, -1),
        not_explained(17),
        explained(2, 3, 0),
        explained(3, 1, -3),
        not_explained(17),
        not_explained(17),
    ];
    assert_eq!(answers.explain, reasons);
    let lists = vec![4, 2, 1, 0, 5, 5, 0, 1, 4, 2, 89, 89, 89];
    let counts = vec![1, 4, 3, 5, 0, 0, 99];
    assert_eq!(answers.list_regions, (0, lists, counts));
    assert_eq!(answers.open, Ok(vec![false, false, true, true, true]));
}

/// The root box goes by live points: without (7, 1) shelf A is settled by faces
/// that the box of all six points is open for.
#[test]
fn root_box_of_the_live_points() {
    for (normal, m, settled) in [([1, 0], 7, done(0, 5, 0)), ([0, 1], 2, done(5, 0, 0))] {
        let a = lent(2, &A, &[1, 1, 1, 0, 1, 1], &normal, &[m]);
        assert_eq!(a.listed().0, settled);
        assert!(lent(2, &A, &[1; 6], &normal, &[m]).listed().0.visits > 0);
    }
}

/// H and S go by v: of 100 points 98 are dead, and the two others, 0 and 10, have
/// the visits S(2, 1).
#[test]
fn bound_of_the_live_points() {
    let (mut points, mut live) = ([i32::MAX; 100], [0; 100]);
    (points[40], points[70]) = (10, 0);
    (live[40], live[70]) = (1, 1);
    let two = lent(1, &points, &live, &[1], &[5]);
    assert_eq!(two.order[..3], [70, 40, 70]);
    assert_eq!(two.listed().0, done(1, 1, 2));
    assert_eq!(s(2, 1), 2);
}

/// With all dead the shelf is empty, however long it is: nothing is listed or
/// found, every buffer may be empty but the counts, and no number belongs.
#[test]
fn all_dead() {
    for n in [0, 1, 2, 9] {
        for k in 1..=4 {
            let mut dead = lent(k, &vec![i32::MIN; k * n], &vec![0; n], &vec![1; k], &[5]);
            dead.order.clear();
            dead.room.clear();
            dead.list.clear();
            dead.lists.clear();
            dead.counts.truncate(6);
            let already = Arranging {
                code: 0,
                already: 1,
            };
            let nothing = Answers {
                arrange: (already, vec![]),
                again: (already, vec![]),
                list: (Listing::default(), vec![]),
                screen: Screening::default(),
                explain: vec![not_explained(17); n + 2],
                list_regions: (0, vec![], vec![0; 6]),
                open: Ok(vec![]),
            };
            assert_eq!(dead.answers(), nothing);
        }
    }
}

/// A shelf of seven numbers of which three are dead, the first and the last among
/// them, and one slanting face.
fn four_of_seven() -> Lent {
    let points = [-9, -9, 1, 5, 4, 2, 9, 9, 4, 8, 6, 6, 9, 9];
    lent(2, &points, &[0, 1, 1, 0, 1, 1, 0], &[1, 1], &[7])
}

/// Whatever the coordinates of the dead numbers are, no answer changes.
#[test]
fn dead_coordinates_of_any_value() {
    let answers = four_of_seven().answers();
    assert_eq!(answers.list.0.code, 0);
    for number in [0, 3, 6] {
        for first in ANY {
            for second in ANY {
                let mut lent = four_of_seven();
                (lent.points[2 * number], lent.points[2 * number + 1]) = (first, second);
                assert_eq!(lent.answers(), answers);
            }
        }
    }
}

/// 5 for a live number's coordinate out of range, whichever it is, and not for
/// the same coordinate once the number is dead.
#[test]
fn coordinates_of_live_numbers_only() {
    for place in 0..14 {
        for x in [i32::MIN, -32_769, 32_768, i32::MAX] {
            let mut lent = four_of_seven();
            lent.points[place] = x;
            let number = place / 2;
            if lent.live[number] == 1 {
                lent.refuses(5);
                lent.live[number] = 0;
            }
            assert_eq!(lent.arranged(&lent.room).0.code, 0);
        }
    }
}

/// A number made live again is tested again: 5 for what was passed over.
#[test]
fn dead_coordinates_count_again() {
    for number in [0, 3, 6] {
        let mut lent = four_of_seven();
        lent.points[2 * number] = 32_768;
        lent.is_arranged();
        lent.live[number] = 1;
        lent.refuses(5);
    }
}

/// 15 for live bytes one too few, one too many, none, and twice as many.
#[test]
fn live_bytes_not_n_long() {
    for byte in [0, 1] {
        for length in [0, 1, 6, 8, 14] {
            let mut lent = four_of_seven();
            lent.live.resize(length, byte);
            lent.refuses(15);
        }
    }
    let mut empty = lent(2, &[], &[], &[1, 1], &[7]);
    empty.is_arranged();
    empty.live = vec![0];
    empty.refuses(15);
}

/// 15 for every byte but 0 and 1, whichever number has it.
#[test]
fn another_live_byte() {
    for byte in 2..=255 {
        for number in 0..7 {
            let mut lent = four_of_seven();
            lent.live[number] = byte;
            lent.refuses(15);
        }
    }
}

/// A change that brings one refusal about.
type Break = (u32, fn(&mut Lent));

/// 15 with another fault: 1, 2 and 3 come before it, 4, 5 and 9 after it.
#[test]
fn live_bytes_tested_after_3_and_before_4() {
    let bytes: [fn(&mut Lent); 3] = [
        |lent| lent.live[1] = 2,
        |lent| lent.live.truncate(6),
        |lent| lent.live.push(1),
    ];
    let others: [Break; 8] = [
        (1, |lent| lent.k = 5),
        (1, |lent| lent.k = 0),
        (2, |lent| lent.n = 65_536),
        (3, |lent| lent.points.truncate(13)),
        (3, |lent| lent.points.push(0)),
        (15, |lent| {
            (lent.order, lent.room, lent.list) = (vec![], vec![], vec![]);
            (lent.lists, lent.counts) = (vec![], vec![]);
        }),
        (15, |lent| lent.points[2] = 32_768),
        (15, |lent| lent.order[0] = 6),
    ];
    for wrong in bytes {
        for (code, other) in others {
            let mut lent = four_of_seven();
            wrong(&mut lent);
            other(&mut lent);
            lent.refuses(code);
        }
    }
}

/// 15 comes before 14: no region, and live bytes wrong or right.
#[test]
fn live_bytes_tested_before_regions() {
    let code = |live: &[u8], regions, face_counts: &[u32]| {
        let (points, order) = ([0, 10], [0, 1]);
        let (lists, counts) = (&mut [89; 2], &mut [99; 3]);
        list_regions(
            1,
            2,
            regions,
            &points,
            live,
            &order,
            face_counts,
            &[],
            &[],
            &[],
            lists,
            counts,
        )
    };
    for live in [&[1, 2][..], &[1], &[1, 1, 1]] {
        assert_eq!(code(live, 0, &[]), 15);
        assert_eq!(code(live, 65, &[]), 15);
        assert_eq!(code(live, 1, &[0, 0]), 15);
        assert_eq!(code(live, 1, &[0]), 15);
    }
    assert_eq!(code(&[1, 0], 0, &[]), 14);
    assert_eq!(code(&[1, 0], 1, &[0, 0]), 14);
    assert_eq!(code(&[1, 0], 2, &[0, 0]), 4);
    assert_eq!(code(&[1, 0], 1, &[0]), 0);
}

/// Order and buffers exactly as long as v asks for: done. Any of them one place
/// shorter: 4, for the calls that have it.
#[test]
fn places_for_the_live_numbers() {
    let mut exact = four_of_seven();
    exact.order.truncate(4);
    exact.room.truncate(4);
    exact.list.truncate(4);
    exact.lists.truncate(8);
    exact.counts.truncate(6);
    assert_eq!(exact.arranged(&exact.room).0.code, 0);
    exact.is_arranged();
    assert_eq!((exact.listed().0.code, exact.listed_regions().0), (0, 0));
    let shorter = |change: fn(&mut Lent)| {
        let mut lent = exact.clone();
        change(&mut lent);
        lent
    };
    let short = shorter(|lent| lent.list.truncate(3));
    assert_eq!(short.listed().0.code, 4);
    assert_eq!(short.listed().1, short.list);
    let short = shorter(|lent| lent.lists.truncate(7));
    let untouched = (4, short.lists.clone(), short.counts.clone());
    assert_eq!(short.listed_regions(), untouched);
    let short = shorter(|lent| lent.counts.truncate(5));
    assert_eq!(short.listed_regions().0, 4);
    let short = shorter(|lent| {
        lent.order.truncate(3);
        lent.room.truncate(3);
    });
    short.refuses(4);
}

/// Every v from 0 to n: orders and lists of each length up to n and one more.
#[test]
fn every_length_for_every_v() {
    for v in 0..=6 {
        let live: Vec<u8> = (0..6).map(|number| u8::from(number < v)).collect();
        for length in 0..=7 {
            let mut lent = lent(2, &A, &live, &[], &[]);
            lent.order.resize(length, 70);
            lent.room.truncate(length);
            let code = if length < v { 4 } else { 0 };
            assert_eq!(lent.arranged(&lent.room).0.code, code);
            assert_eq!(lent.arranged(&lent.order).0.code, code);
            lent.order.resize(7, 70);
            if code == 0 {
                lent.list.truncate(length);
                assert_eq!(lent.listed().0, done(v as u32, 0, 0));
            }
            lent.lists = vec![89; 2 * length];
            assert_eq!(lent.listed_regions().0, code);
        }
    }
}

/// Places of the order from v on are neither read nor written, whatever they hold.
#[test]
fn later_places_are_not_read() {
    let mut answers = four_of_seven().answers();
    for later in [0, 1, 3, 6, 7, u32::MAX] {
        let mut lent = four_of_seven();
        lent.order[4..].fill(later);
        answers.again.1[4..].fill(later);
        assert_eq!(lent.answers(), answers);
    }
}

/// A damaged place of the order: a dead number, another live one, so that it is
/// there twice, or one not below n. All are 9, in every slot.
#[test]
fn damaged_orders() {
    for slot in 0..4 {
        for number in (0..=8).chain([u32::MAX]) {
            let mut lent = four_of_seven();
            if lent.order[slot] != number {
                lent.order[slot] = number;
                lent.refuses(9);
            }
        }
    }
}

/// Two slots of the order changed over: 9, and so is an order that holds the
/// live numbers from its second place on.
#[test]
fn orders_changed_over() {
    for first in 0..4 {
        for second in 0..first {
            let mut lent = four_of_seven();
            lent.order.swap(first, second);
            lent.refuses(9);
        }
    }
    let mut lent = four_of_seven();
    lent.order.insert(0, 0);
    lent.refuses(9);
}

/// The order of all seven with the dead numbers among them is 9, though it was
/// right before they were withdrawn; arranged anew it passes.
#[test]
fn order_from_before() {
    let mut lent = four_of_seven();
    lent.live = vec![1; 7];
    lent.order = lent.arranged(&lent.room).1;
    lent.is_arranged();
    lent.live = four_of_seven().live;
    lent.refuses(9);
    lent.order = lent.arranged(&lent.order).1;
    lent.is_arranged();
    assert_eq!(lent.order[..4], four_of_seven().order[..4]);
    assert_eq!(lent.listed(), four_of_seven().listed());
}

/// 17 for the dead numbers and those not below n, and for no others.
#[test]
fn numbers_to_explain() {
    let lent = four_of_seven();
    for number in (0..9).chain([65_535, 65_536, u32::MAX]) {
        let belongs = [1, 2, 4, 5].contains(&number);
        let code = if belongs { 0 } else { 17 };
        assert_eq!(lent.explained(number).code, code);
        if !belongs {
            assert_eq!(lent.explained(number), not_explained(17));
        }
    }
}

/// 17 comes last: with a number that is dead or not below n and another fault,
/// the other is given.
#[test]
fn number_tested_last() {
    let others: [Break; 10] = [
        (1, |lent| lent.k = 5),
        (2, |lent| lent.n = 65_536),
        (3, |lent| lent.points.push(0)),
        (15, |lent| lent.live[0] = 2),
        (4, |lent| lent.order.truncate(3)),
        (5, |lent| lent.points[2] = 32_768),
        (7, |lent| lent.normals.push(0)),
        (8, |lent| lent.offsets[0] = i64::MAX),
        (11, |lent| lent.marks[0] = 2),
        (9, |lent| lent.order[0] = 0),
    ];
    for (code, other) in others {
        let mut lent = four_of_seven();
        other(&mut lent);
        for number in [0, 3, 6, 7, u32::MAX] {
            assert_eq!(lent.explained(number), not_explained(code));
        }
    }
}

/// So many numbers that look random, from `least` to `greatest`.
fn thrown(state: &mut u64, count: usize, least: i64, greatest: i64) -> Vec<i64> {
    let next = |_| {
        *state ^= *state << 13;
        *state ^= *state >> 7;
        *state ^= *state << 17;
        least + (*state % (greatest - least + 1) as u64) as i64
    };
    (0..count).map(next).collect()
}

/// The same numbers in 32 bits.
fn narrow(row: Vec<i64>) -> Vec<i32> {
    row.into_iter().map(|x| x as i32).collect()
}

/// The same numbers in a byte.
fn bytes(row: Vec<i64>) -> Vec<u8> {
    row.into_iter().map(|x| x as u8).collect()
}

/// Live bytes of `n` numbers: all dead or all live in some rounds, else about one
/// in four, half or three in four live.
fn thrown_live(state: &mut u64, n: usize, round: usize) -> Vec<u8> {
    let dead_below = [4, 3, 2, 1, 0, 1, 2, 3][round % 8];
    let throws = thrown(state, n, 0, 3);
    let live = throws
        .into_iter()
        .map(|throw| u8::from(throw >= dead_below));
    live.collect()
}

/// Points with small coordinates, so that ties are frequent; those of the dead
/// numbers are anything that 32 bits hold.
fn thrown_points(state: &mut u64, k: usize, live: &[u8]) -> Vec<i32> {
    let point = |&byte: &u8| match byte {
        1 => narrow(thrown(state, k, -7, 7)),
        _ => narrow(thrown(state, k, i32::MIN.into(), i32::MAX.into())),
    };
    live.iter().flat_map(point).collect()
}

/// Normals of `h` faces; in every other round at most one component of each is
/// not 0.
fn thrown_normals(state: &mut u64, k: usize, h: usize, round: usize) -> Vec<i32> {
    let square = [true, false][round % 2];
    let mut normals = narrow(thrown(state, k * h, -3, 3));
    for face in 0..h {
        let kept = thrown(state, 1, 0, k as i64 - 1)[0] as usize;
        for other in (0..k).filter(|&other| square && other != kept) {
            normals[face * k + other] = 0;
        }
    }
    normals
}

/// Random cases of 0 to 30 numbers and 0 to 4 faces, closed and open.
fn cases() -> Vec<Lent> {
    let mut state = 109;
    let case = |round: usize| {
        let (k, n, h) = (1 + round / 2 % 4, round % 31, round % 5);
        let live = thrown_live(&mut state, n, round);
        let points = thrown_points(&mut state, k, &live);
        let normals = thrown_normals(&mut state, k, h, round);
        let offsets = thrown(&mut state, h, -16, 4);
        let marks = bytes(thrown(&mut state, h, 0, 1));
        Lent {
            marks,
            ..lent(k, &points, &live, &normals, &offsets)
        }
    };
    (0..900).map(case).collect()
}

/// The same calls without the dead points: the live ones are numbered anew in
/// their order, which keeps every tie, and all of them are live.
fn without_dead(case: &Lent) -> Lent {
    let (k, old) = (case.k, live_numbers(&case.live));
    let point = |&number: &u32| case.points.chunks(k).nth(number as usize).unwrap();
    let points: Vec<i32> = old.iter().flat_map(point).copied().collect();
    let live = vec![1; old.len()];
    let anew = lent(k, &points, &live, &case.normals, &case.offsets);
    Lent {
        order: [&anew.order[..old.len()], &case.order[old.len()..]].concat(),
        room: case.room.clone(),
        list: case.list.clone(),
        lists: case.lists.clone(),
        marks: case.marks.clone(),
        ..anew
    }
}

/// The answers without the dead points in the numbers of the case itself; where
/// explain is asked about a number that does not belong it is 17.
fn numbered_as_before(case: &Lent, mut anew: Answers) -> Answers {
    let old = live_numbers(&case.live);
    let v = old.len();
    let turn = |places: &mut [u32]| {
        for place in places {
            *place = old[*place as usize];
        }
    };
    turn(&mut anew.arrange.1[..v]);
    turn(&mut anew.again.1[..v]);
    turn(&mut anew.list.1[..v]);
    turn(&mut anew.list_regions.1[..2 * v]);
    if anew.screen.found == 1 {
        anew.screen.number = old[anew.screen.number as usize];
    }
    let explained = |number: u32| match old.iter().position(|&live| live == number) {
        Some(new) => anew.explain[new],
        None => not_explained(17),
    };
    let explain = (0..case.n as u32 + 2).map(explained).collect();
    Answers { explain, ..anew }
}

/// Every answer and every buffer is that of the shelf without its dead points.
#[test]
fn equal_to_the_shelf_without_its_dead() {
    for case in cases() {
        let anew = without_dead(&case).answers();
        assert_eq!((anew.again.0.already, anew.list.0.code), (1, 0));
        assert_eq!(case.answers(), numbered_as_before(&case, anew));
    }
}

/// Other dead coordinates in a random case: no answer changes.
#[test]
fn equal_with_other_dead_coordinates() {
    let mut state = 113;
    for case in cases() {
        let mut other = case.clone();
        for (place, x) in other.points.iter_mut().enumerate() {
            if case.live[place / case.k] == 0 {
                *x = thrown(&mut state, 1, i32::MIN.into(), i32::MAX.into())[0] as i32;
            }
        }
        assert_eq!(other.answers(), case.answers());
    }
}

/// The list holds each live number once, and inside plus outside is v.
#[test]
fn each_live_number_once() {
    for case in cases() {
        let old = live_numbers(&case.live);
        let (answer, places) = case.listed();
        assert_eq!((answer.inside + answer.outside) as usize, old.len());
        let mut listed = places[..old.len()].to_vec();
        listed.sort();
        assert_eq!(listed, old);
    }
}

/// Visits are at most the sum of the visits of each face alone and, where all
/// faces are square, at most h times S(v, k).
#[test]
fn both_visit_bounds() {
    let mut square_cases = 0;
    for case in cases() {
        let (k, n, h) = (case.k, case.n, case.offsets.len());
        let normal = |face: usize| &case.normals[face * k..(face + 1) * k];
        let of_face = |face: usize| {
            let (points, live, order) = (&case.points, &case.live, &case.order);
            let (m, mark) = (case.offsets[face], case.marks[face]);
            visits_of_face(k, n, points, live, order, normal(face), m, mark).unwrap()
        };
        let visits = case.listed().0.visits;
        assert!(visits <= (0..h).map(of_face).sum::<u32>());
        if (0..h).all(|face| is_square(normal(face))) {
            square_cases += 1;
            let v = live_numbers(&case.live).len();
            assert!(u64::from(visits) <= h as u64 * s(v, k));
        }
    }
    assert!(square_cases >= 400, "{square_cases}");
}

/// All rows of `length` numbers from 0 to `most`.
fn rows(length: usize, most: u32) -> Vec<Vec<u32>> {
    if length == 0 {
        return vec![vec![]];
    }
    let longer = |row: Vec<u32>| (0..=most).map(move |last| [&row[..], &[last]].concat());
    let shorter = rows(length - 1, most).into_iter();
    shorter.flat_map(longer).collect()
}

/// For all live bytes of four numbers: of all rows of v numbers from 0 to 4
/// exactly one already is the tree, and every one is arranged into it.
#[test]
fn exactly_one_order() {
    let mut state = 127;
    for pattern in 0..16 {
        let live: Vec<u8> = (0..4).map(|number| pattern >> number & 1).collect();
        let v = live_numbers(&live).len();
        for k in 1..=4 {
            let points = thrown_points(&mut state, k, &live);
            let mut order = vec![77; v];
            assert_eq!(arrange(k, 4, &points, &live, &mut order).code, 0);
            for row in rows(v, 4) {
                let mut after = row.clone();
                let answer = arrange(k, 4, &points, &live, &mut after);
                let already = u32::from(row == order);
                assert_eq!((answer.code, answer.already), (0, already));
                assert_eq!(after, order);
            }
        }
    }
}

/// A full shelf of which every third number is live, with dead coordinates that
/// are out of range: order, list and screen.
#[test]
fn full_shelf_with_dead_numbers() {
    let live: Vec<u8> = (0..65_535).map(|n| u8::from(n % 3 == 2)).collect();
    let points: Vec<i32> = (0..65_535)
        .map(|n| if n % 3 == 2 { n / 3 } else { i32::MAX - n })
        .collect();
    let full = lent(1, &points, &live, &[1], &[20_000]);
    let rising: Vec<u32> = (0..21_845).map(|n| 3 * n + 2).collect();
    assert_eq!(full.order[..21_845], rising);
    assert_eq!(full.order[21_845..], [70; 43_691]);
    let (answer, places) = full.listed();
    assert_eq!((answer.inside, answer.outside), (1_845, 20_000));
    assert!((1..=s(21_845, 1)).contains(&u64::from(answer.visits)));
    assert_eq!((places[0], places[21_844]), (60_002, 2));
    assert_eq!(places[21_845..], [88; 43_691]);
    assert_eq!(full.screened().number, 60_002);
    assert_eq!(full.explained(65_534).code, 0);
    assert_eq!(full.explained(65_533).code, 17);
}

/// The random cases hold what they are made for: dead numbers first, last and in
/// between, shelves all dead and all live, mixed lists, visits, a found number
/// that is not the first, and dead coordinates out of range.
#[test]
fn cases_of_every_kind() {
    let mut seen = [0; 9];
    for case in cases() {
        let (v, live) = (live_numbers(&case.live).len(), &case.live);
        let (answer, screening) = (case.listed().0, case.screened());
        let out = |x: &i32| !(-32_768..=32_767).contains(x);
        let kinds = [
            v > 0 && live.first() == Some(&0),
            v > 0 && live.last() == Some(&0),
            live.windows(3).any(|bytes| bytes == [1, 0, 1]),
            v == 0 && case.n > 0,
            v > 0 && v == case.n,
            answer.inside > 0 && answer.outside > 0,
            answer.visits > 0,
            screening.found == 1 && screening.number != case.order[0],
            case.points.iter().any(out),
        ];
        for (count, kind) in seen.iter_mut().zip(kinds) {
            *count += u32::from(kind);
        }
    }
    assert!(seen.iter().all(|&count| count >= 100), "{seen:?}");
}
