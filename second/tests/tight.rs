//! Tight boxes: worked summaries and lists, refusals of both calls, and random
//! shelves with dead numbers against list and against boxes made run by run.

use second::shelf::live_shelf;
use second::{arrange, is_square, list, list_tight, open_slots, s, summarise, Listing};
use second::{region, tight, visits};

const A: [i32; 12] = [1, 5, 4, 2, 4, 8, 7, 1, 6, 6, 2, 2];

/// The summary of shelf A: slots 0, 2 and 4 are alone in their branches.
const A_SUMMARY: [i32; 24] = [
    4, 2, 4, 2, 1, 2, 4, 5, 1, 5, 1, 5, 1, 1, 7, 8, 7, 1, 7, 1, 6, 1, 7, 6,
];

/// The arguments of both calls, with what their buffers hold before: `room` is
/// lent to summarise and `summary` to list by tight boxes.
#[derive(Clone)]
struct Lent {
    k: usize,
    n: usize,
    h: usize,
    points: Vec<i32>,
    live: Vec<u8>,
    order: Vec<u32>,
    summary: Vec<i32>,
    normals: Vec<i32>,
    offsets: Vec<i64>,
    marks: Vec<u8>,
    room: Vec<i32>,
    list: Vec<u32>,
}

/// The numbers whose live byte is 1.
fn live_numbers(live: &[u8]) -> Vec<u32> {
    let all = 0..live.len() as u32;
    all.filter(|&number| live[number as usize] == 1).collect()
}

/// The calls for this shelf, arranged and summarised, which must be done, and this
/// region, every face closed. Order and list have more places than they need.
fn lent(k: usize, points: &[i32], live: &[u8], normals: &[i32], offsets: &[i64]) -> Lent {
    let (n, v) = (live.len(), live_numbers(live).len());
    let mut order = vec![70; n + 1];
    assert_eq!(arrange(k, n, points, live, &mut order).code, 0);
    let mut summary = vec![90; 2 * k * v];
    assert_eq!(summarise(k, n, points, live, &order, &mut summary), 0);
    Lent {
        k,
        n,
        h: offsets.len(),
        points: points.to_vec(),
        live: live.to_vec(),
        order,
        room: vec![91; summary.len()],
        summary,
        normals: normals.to_vec(),
        offsets: offsets.to_vec(),
        marks: vec![0; offsets.len()],
        list: vec![88; n + 1],
    }
}

impl Lent {
    /// The answer of summarise, and the summary afterwards.
    fn summarised(&self) -> (u32, Vec<i32>) {
        let mut room = self.room.clone();
        let code = summarise(
            self.k,
            self.n,
            &self.points,
            &self.live,
            &self.order,
            &mut room,
        );
        (code, room)
    }

    /// The answer of list by tight boxes, and its buffer afterwards.
    fn listed_tight(&self) -> (Listing, Vec<u32>) {
        let mut buffer = self.list.clone();
        let answer = list_tight(
            self.k,
            self.n,
            self.h,
            &self.points,
            &self.live,
            &self.order,
            &self.summary,
            &self.normals,
            &self.offsets,
            &self.marks,
            &mut buffer,
        );
        (answer, buffer)
    }

    /// The answer of list, and its buffer afterwards.
    fn listed(&self) -> (Listing, Vec<u32>) {
        let mut buffer = self.list.clone();
        let answer = list(
            self.k,
            self.n,
            self.h,
            &self.points,
            &self.live,
            &self.order,
            &self.normals,
            &self.offsets,
            &self.marks,
            &mut buffer,
        );
        (answer, buffer)
    }

    /// For each slot whether its branch box is open.
    fn open(&self) -> Vec<bool> {
        open_slots(
            self.k,
            self.n,
            self.h,
            &self.points,
            &self.live,
            &self.order,
            &self.normals,
            &self.offsets,
            &self.marks,
        )
        .unwrap()
    }

    /// For each slot whether its tight box is open.
    fn open_tight(&self) -> Vec<bool> {
        let shelf = live_shelf(self.k, &self.points, &self.live, &self.order);
        tight::open_tight_slots(&shelf, &self.faces())
    }

    /// The faces of the region.
    fn faces(&self) -> Vec<region::Face> {
        region::faces(self.k, self.h, &self.normals, &self.offsets, &self.marks)
    }

    /// Asks that summarise refuses with this number and writes nothing.
    fn summarise_refuses(&self, code: u32) {
        assert_eq!(self.summarised(), (code, self.room.clone()));
    }

    /// Asks that list by tight boxes refuses with this number, with zeros and
    /// nothing written.
    fn list_refuses(&self, code: u32) {
        let refusal = Listing {
            code,
            ..Listing::default()
        };
        assert_eq!(self.listed_tight(), (refusal, self.list.clone()));
    }
}

/// A done answer.
fn done(inside: u32, outside: u32, visits: u32) -> Listing {
    Listing {
        code: 0,
        inside,
        outside,
        visits,
    }
}

/// The summary of shelf A, slot by slot.
#[test]
fn summary_of_a() {
    let a = lent(2, &A, &[1; 6], &[], &[]);
    assert_eq!(a.summarised(), (0, A_SUMMARY.to_vec()));
}

/// Shelf A without number 3, (7, 1): order 5 0 1 4 2, five slots.
#[test]
fn summary_of_a_without_number_3() {
    let a = lent(2, &A, &[1, 1, 1, 0, 1, 1], &[], &[]);
    assert_eq!(a.order[..5], [5, 0, 1, 4, 2]);
    let summary = vec![2, 2, 2, 2, 1, 2, 2, 5, 1, 2, 6, 8, 6, 6, 6, 6, 4, 6, 6, 8];
    assert_eq!(a.summarised(), (0, summary));
}

/// Shelf A with the two faces of example 2: of its five visits those of slots 1,
/// 3 and 5 stay; slots 2 and 4 are alone in their branches.
#[test]
fn two_faces() {
    let a = lent(2, &A, &[1; 6], &[1, 1, -1, 0], &[7, -6]);
    let places = vec![2, 4, 3, 0, 5, 1, 88];
    assert_eq!(a.listed(), (done(2, 4, 5), places.clone()));
    assert_eq!(a.listed_tight(), (done(2, 4, 3), places));
    assert_eq!(a.open_tight(), [false, true, false, true, false, true]);
}

/// Example 3: the box of slot 5 is x 4..7 by its ancestors and x 6..7 by its own
/// points, wholly above the face, so that the root alone is visited.
#[test]
fn one_square_face() {
    let a = lent(2, &A, &[1; 6], &[1, 0], &[5]);
    let places = vec![3, 4, 2, 0, 5, 1, 88];
    assert_eq!(a.listed(), (done(2, 4, 3), places.clone()));
    assert_eq!(a.listed_tight(), (done(2, 4, 1), places));
}

/// Examples 4, 6, 7 and 12 by tight boxes.
#[test]
fn other_examples() {
    let listed = |k, points: &[i32], normals: &[i32], offsets: &[i64]| {
        let live = vec![1; points.len() / k];
        lent(k, points, &live, normals, offsets).listed_tight().0
    };
    assert_eq!(listed(2, &A, &[1, 0], &[1]), done(6, 0, 0));
    assert_eq!(listed(2, &A, &[1, 0], &[8]), done(0, 6, 0));
    assert_eq!(listed(2, &A, &[], &[]), done(6, 0, 0));
    assert_eq!(listed(1, &[0, 10], &[1], &[5]), done(1, 1, 1));
    assert_eq!(listed(2, &A, &[0, 0], &[0]), done(6, 0, 0));
    assert_eq!(listed(2, &A, &[0, 0], &[1]), done(0, 6, 0));
}

/// A tight box with its corner on a face: wholly above a closed face, and for an
/// open one not.
#[test]
fn corner_on_a_face() {
    let mut two = lent(1, &[5, 9], &[1; 2], &[1], &[5]);
    assert_eq!(two.listed_tight().0, done(2, 0, 0));
    two.marks = vec![1];
    assert_eq!(two.listed_tight().0, done(1, 1, 1));
}

/// With no live number the summary is empty and nothing is visited, however many
/// are dead.
#[test]
fn empty_shelves() {
    for n in [0, 1, 5] {
        for k in 1..=4 {
            let mut empty = lent(k, &vec![i32::MIN; k * n], &vec![0; n], &vec![1; k], &[5]);
            (empty.order, empty.list) = (vec![], vec![]);
            assert_eq!(empty.summarised(), (0, vec![]));
            assert_eq!(empty.listed_tight(), (Listing::default(), vec![]));
            (empty.room, empty.summary) = (vec![91], vec![91]);
            empty.summarise_refuses(18);
            empty.list_refuses(18);
        }
    }
}

/// A shelf of seven numbers of which three are dead, the first and the last among
/// them, and one slanting face.
fn four_of_seven() -> Lent {
    let points = [-9, -9, 1, 5, 4, 2, 9, 9, 4, 8, 6, 6, 9, 9];
    lent(2, &points, &[0, 1, 1, 0, 1, 1, 0], &[1, 1], &[7])
}

/// A change that brings one refusal about.
type Break = (u32, fn(&mut Lent));

/// One break for each test of list by tight boxes, from the last to the first: 18
/// for the truth, 9, 11, 8 down to 5, 18 for the length, 4, 15, then 3 down to 1.
/// Each later one must hide those before it.
const BREAKS: [Break; 13] = [
    (18, |lent| lent.summary[3] += 1),
    (9, |lent| lent.order.swap(0, 1)),
    (11, |lent| lent.marks[0] = 2),
    (8, |lent| lent.offsets[0] = i64::MAX),
    (7, |lent| lent.normals.push(0)),
    (6, |lent| lent.h = 33),
    (5, |lent| lent.points[2] = 32_768),
    (18, |lent| {
        lent.summary.push(0);
        lent.room.push(0);
    }),
    (4, |lent| lent.order.truncate(3)),
    (15, |lent| lent.live[0] = 2),
    (3, |lent| lent.points.push(0)),
    (2, |lent| lent.n = 65_536),
    (1, |lent| lent.k = 5),
];

/// The breaks that summarise asks about, in the same order: it has no region, and
/// of its summary only the length counts.
fn breaks_of_summarise() -> Vec<Break> {
    let asked = |&(code, _): &Break| ![6, 7, 8, 11].contains(&code);
    BREAKS.into_iter().skip(1).filter(asked).collect()
}

/// Calls the test for each break alone, for any two together and for all heaped
/// up, with the number that comes first in the call's order.
fn for_breaks(breaks: &[Break], refuses: fn(&Lent, u32)) {
    let mut heaped = four_of_seven();
    for (place, (late_code, late)) in breaks.iter().enumerate() {
        let mut alone = four_of_seven();
        late(&mut alone);
        refuses(&alone, *late_code);
        late(&mut heaped);
        refuses(&heaped, *late_code);
        for (code, early) in &breaks[place + 1..] {
            let mut two = alone.clone();
            early(&mut two);
            refuses(&two, *code);
        }
    }
}

/// List by tight boxes refuses each break alone, the first of two, and in its
/// order.
#[test]
fn list_refuses_in_its_order() {
    assert_eq!(four_of_seven().listed_tight().0.code, 0);
    for_breaks(&BREAKS, Lent::list_refuses);
}

/// Summarise refuses each break alone, the first of two, and in its order.
#[test]
fn summarise_refuses_in_its_order() {
    assert_eq!(four_of_seven().summarised().0, 0);
    for_breaks(&breaks_of_summarise(), Lent::summarise_refuses);
}

/// What the summary held before does not matter to summarise.
#[test]
fn any_first_contents() {
    let right = four_of_seven().summarised();
    for first in [i32::MIN, 0, i32::MAX] {
        let mut lent = four_of_seven();
        lent.room.fill(first);
        assert_eq!(lent.summarised(), right);
    }
}

/// A list buffer exactly as long as v asks for is done, one place shorter is 4,
/// before both 18; later places stay.
#[test]
fn list_buffer() {
    let mut lent = four_of_seven();
    assert_eq!(lent.listed_tight().1[4..], [88; 4]);
    lent.list.truncate(4);
    assert_eq!(lent.listed_tight().0.code, 0);
    lent.list.truncate(3);
    lent.list_refuses(4);
    lent.summary[0] += 1;
    lent.list_refuses(4);
    lent.summary.clear();
    lent.list_refuses(4);
}

/// 18 for a summary of any length but 2k times v, k times v and 2k times n among
/// them; it comes before 5 and after 4.
#[test]
fn summary_of_another_length() {
    for length in (0..=28).filter(|&length| length != 16) {
        let mut lent = four_of_seven();
        lent.summary.resize(length, 0);
        lent.room.resize(length, 91);
        lent.list_refuses(18);
        lent.summarise_refuses(18);
        lent.points[2] = 32_768;
        lent.list_refuses(18);
        lent.summarise_refuses(18);
        lent.order.clear();
        lent.list_refuses(4);
        lent.summarise_refuses(4);
    }
}

/// 18 for a summary that differs from the true one in any place.
#[test]
fn every_damaged_summary() {
    for place in 0..16 {
        for x in [i32::MIN, -1, 0, 1, 32_768, i32::MAX] {
            let mut lent = four_of_seven();
            if lent.summary[place] != x {
                lent.summary[place] = x;
                lent.list_refuses(18);
            }
        }
    }
}

/// 18 for the summary of the inherited boxes, for one with the greatest first, for
/// one with each dimension's two together, and for one with the slots backwards.
#[test]
fn other_summaries() {
    let a = lent(2, &A, &[1; 6], &[1, 0], &[5]);
    let shelf = live_shelf(2, &A, &[1; 6], &a.order);
    let root = visits::root_box(&shelf).unwrap();
    let inherited = (0..6).flat_map(|slot| {
        let bx = visits::branch_box(&shelf, &root, slot);
        [bx.least, bx.greatest].concat()
    });
    let turned = |places: [usize; 4]| {
        let slots = A_SUMMARY.chunks(4);
        slots.flat_map(move |slot| places.map(|place| slot[place]))
    };
    let others = [
        inherited.collect::<Vec<i32>>(),
        turned([2, 3, 0, 1]).collect(),
        turned([0, 2, 1, 3]).collect(),
        A_SUMMARY.chunks(4).rev().flatten().copied().collect(),
    ];
    for summary in others {
        let mut lent = a.clone();
        lent.summary = summary;
        lent.list_refuses(18);
    }
}

/// A summary from before: once a point is moved, or withdrawn and the shelf
/// arranged anew, the old one is 18.
#[test]
fn summary_from_before() {
    let mut moved = four_of_seven();
    moved.points[11] = 7;
    assert_eq!(moved.listed().0.code, 0);
    moved.list_refuses(18);
    moved.summary = moved.summarised().1;
    assert_eq!(moved.listed_tight().0.code, 0);
    let mut withdrawn = four_of_seven();
    withdrawn.live[5] = 0;
    let (n, points, live) = (withdrawn.n, &withdrawn.points, &withdrawn.live);
    assert_eq!(arrange(2, n, points, live, &mut withdrawn.order).code, 0);
    withdrawn.list_refuses(18);
}

/// The greatest numbers of all neither overflow nor panic.
#[test]
fn greatest_numbers_are_refused() {
    let most = usize::MAX;
    assert_eq!(summarise(most, 0, &[], &[], &[], &mut []), 1);
    assert_eq!(summarise(4, most, &[], &[], &[], &mut []), 2);
    let code = |k, n, h| {
        let list = &mut [];
        list_tight(k, n, h, &[], &[], &[], &[], &[], &[], &[], list).code
    };
    assert_eq!(code(most, most, most), 1);
    assert_eq!(code(4, most, most), 2);
    assert_eq!(code(4, 0, most), 6);
    assert_eq!(code(4, 0, 0), 0);
}

/// So many numbers that look random, from `least` to `greatest`.
fn thrown(state: &mut u64, count: usize, least: i64, greatest: i64) -> Vec<i64> {
    let next = |_| {
        *state ^= *state << 13;
        *state ^= *state >> 7;
        *state ^= *state << 17;
        least + (*state % (greatest - least + 1) as u64) as i64
    };
    (0..count).map(next).collect()
}

/// The same numbers in 32 bits.
fn narrow(row: Vec<i64>) -> Vec<i32> {
    row.into_iter().map(|x| x as i32).collect()
}

/// Points in two clusters with small coordinates, so that ties are frequent; those
/// of the dead numbers are anything that 32 bits hold.
fn thrown_points(state: &mut u64, k: usize, live: &[u8]) -> Vec<i32> {
    let point = |&byte: &u8| {
        let centre = [-9, 9][thrown(state, 1, 0, 1)[0] as usize];
        match byte {
            1 => narrow(thrown(state, k, centre - 4, centre + 4)),
            _ => narrow(thrown(state, k, i32::MIN.into(), i32::MAX.into())),
        }
    };
    live.iter().flat_map(point).collect()
}

/// Normals of `h` faces; where they are to be square, at most one component of
/// each is not 0.
fn thrown_normals(state: &mut u64, k: usize, h: usize, square: bool) -> Vec<i32> {
    let mut normals = narrow(thrown(state, k * h, -3, 3));
    for face in 0..h {
        let kept = thrown(state, 1, 0, k as i64 - 1)[0] as usize;
        for other in (0..k).filter(|&other| square && other != kept) {
            normals[face * k + other] = 0;
        }
    }
    normals
}

/// Random cases of 0 to 40 numbers, about a fourth of them dead, and 0 to 4 faces,
/// closed and open.
fn cases() -> Vec<Lent> {
    let mut state = 163;
    let case = |round: usize| {
        let (k, n, h) = (1 + round / 2 % 4, round % 41, round % 5);
        let throws = thrown(&mut state, n, 0, 3);
        let live: Vec<u8> = throws.into_iter().map(|x| u8::from(x > 0)).collect();
        let points = thrown_points(&mut state, k, &live);
        let normals = thrown_normals(&mut state, k, h, [true, false][round % 2]);
        let offsets = thrown(&mut state, h, -25, 15);
        let marks = thrown(&mut state, h, 0, 1);
        Lent {
            marks: marks.into_iter().map(|x| x as u8).collect(),
            ..lent(k, &points, &live, &normals, &offsets)
        }
    };
    (0..900).map(case).collect()
}

/// The summary made run by run: the points of the run are gone through for its
/// node, then those of the left branch and of the right.
fn summary_by_runs(case: &Lent, start: usize, length: usize, summary: &mut [i32]) {
    if length == 0 {
        return;
    }
    let (k, node) = (case.k, start + length / 2);
    for s in 0..k {
        let on = |slot: usize| case.points[case.order[slot] as usize * k + s];
        let row = &mut summary[2 * k * node..2 * k * (node + 1)];
        (row[s], row[k + s]) = (on(start), on(start));
        for slot in start..start + length {
            row[s] = row[s].min(on(slot));
            row[k + s] = row[k + s].max(on(slot));
        }
    }
    summary_by_runs(case, start, node - start, summary);
    summary_by_runs(case, node + 1, start + length - node - 1, summary);
}

/// Summaries equal those made run by run.
#[test]
fn summaries_by_runs() {
    for case in cases() {
        let v = live_numbers(&case.live).len();
        let mut summary = vec![0; 2 * case.k * v];
        summary_by_runs(&case, 0, v, &mut summary);
        assert_eq!(case.summarised(), (0, summary));
    }
}

/// Lists and their counts equal list's, later places too, and visits are never
/// more than list's.
#[test]
fn equal_to_list_but_for_visits() {
    let (mut fewer, mut same) = (0, 0);
    for case in cases() {
        let ((answer, places), (tight, tight_places)) = (case.listed(), case.listed_tight());
        assert_eq!(answer.code, 0);
        assert_eq!(tight_places, places);
        let visits = answer.visits;
        assert_eq!(Listing { visits, ..tight }, answer);
        assert!(tight.visits <= visits);
        fewer += u32::from(tight.visits < visits);
        same += u32::from(tight.visits == visits && visits > 0);
    }
    assert!(fewer >= 400 && same >= 10, "{fewer} {same}");
}

/// Visits are the slots whose box in the summary is open: neither wholly below a
/// face nor wholly above all, with each corner taken side by side.
#[test]
fn visits_by_the_summary() {
    for case in cases() {
        let k = case.k;
        let open = |slot: &&[i32]| {
            let sums = |face: usize| {
                let normal = &case.normals[face * k..(face + 1) * k];
                let ends = |s: usize| {
                    let component = i64::from(normal[s]);
                    let (a, b) = (i64::from(slot[s]), i64::from(slot[k + s]));
                    (component * a, component * b)
                };
                let low: i64 = (0..k).map(|s| ends(s).0.min(ends(s).1)).sum();
                let high: i64 = (0..k).map(|s| ends(s).0.max(ends(s).1)).sum();
                let needed = case.offsets[face] + i64::from(case.marks[face]);
                (low >= needed, high < needed)
            };
            let below_one = (0..case.h).any(|face| sums(face).1);
            let above_all = (0..case.h).all(|face| sums(face).0);
            !below_one && !above_all
        };
        let visits = case.summary.chunks(2 * k).filter(open).count() as u32;
        assert_eq!(case.listed_tight().0.visits, visits);
    }
}

/// A slot whose tight box is open has an open branch box, and a slot alone in its
/// branch is never open.
#[test]
fn open_slots_among_lists() {
    for case in cases() {
        let (open, tight) = (case.open(), case.open_tight());
        assert!((0..open.len()).all(|slot| open[slot] || !tight[slot]));
        let alone = slots_alone(0, open.len());
        assert!(alone.iter().all(|&slot| !tight[slot]));
    }
}

/// The slots of the run that are alone in their branches.
fn slots_alone(start: usize, length: usize) -> Vec<usize> {
    if length <= 1 {
        return (start..start + length).collect();
    }
    let node = start + length / 2;
    let left = slots_alone(start, node - start);
    let right = slots_alone(node + 1, start + length - node - 1);
    [left, right].concat()
}

/// Visits are at most the sum of the tight visits of each face alone and, where
/// all faces are square, at most h times S(v, k).
#[test]
fn both_visit_bounds() {
    let mut square_cases = 0;
    for case in cases() {
        let (k, h) = (case.k, case.h);
        let of_face = |face: usize| {
            let mut alone = case.clone();
            alone.h = 1;
            alone.normals = case.normals[face * k..(face + 1) * k].to_vec();
            alone.offsets = vec![case.offsets[face]];
            alone.marks = vec![case.marks[face]];
            alone.listed_tight().0.visits
        };
        let visits = case.listed_tight().0.visits;
        assert!(visits <= (0..h).map(of_face).sum::<u32>());
        if case.normals.chunks(k).all(is_square) {
            square_cases += 1;
            let v = live_numbers(&case.live).len();
            assert!(u64::from(visits) <= h as u64 * s(v, k));
        }
    }
    assert!(square_cases >= 400, "{square_cases}");
}

/// Other coordinates of the dead numbers: no answer and no place changes.
#[test]
fn dead_coordinates_do_not_matter() {
    let mut state = 167;
    for case in cases() {
        let mut other = case.clone();
        for (place, x) in other.points.iter_mut().enumerate() {
            if case.live[place / case.k] == 0 {
                *x = thrown(&mut state, 1, i32::MIN.into(), i32::MAX.into())[0] as i32;
            }
        }
        assert_eq!(other.summarised(), case.summarised());
        assert_eq!(other.listed_tight(), case.listed_tight());
    }
}

/// Each place of a random summary one more or one less: 18.
#[test]
fn random_summaries_damaged() {
    for case in cases().into_iter().step_by(9) {
        for place in 0..case.summary.len() {
            for step in [-1, 1] {
                let mut damaged = case.clone();
                damaged.summary[place] += step;
                damaged.list_refuses(18);
            }
        }
    }
}

/// Coordinates at both limits stand in the summary as they are.
#[test]
fn limits_in_the_summary() {
    let points = [-32_768, 32_767, 32_767, -32_768];
    let two = lent(2, &points, &[1; 2], &[32_767, 32_767], &[0]);
    let (least, greatest) = (-32_768, 32_767);
    let root = [least, least, greatest, greatest];
    let slot = [least, greatest, least, greatest];
    assert_eq!(two.summary, [slot, root].concat());
    assert_eq!(two.listed_tight().0, done(0, 2, 1));
}
