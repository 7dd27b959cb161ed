//! Limits on both sides, the order of the tests of each call, and what a refusal
//! leaves alone, every point live.

use second::{arrange, list, open_slots, place, screen, Listing, Placing, Screening};

const M: i64 = 8_589_934_592;

/// The arguments of a list call, all right at first.
#[derive(Clone)]
struct Lent {
    k: usize,
    n: usize,
    h: usize,
    points: Vec<i32>,
    live: Vec<u8>,
    order: Vec<u32>,
    normals: Vec<i32>,
    offsets: Vec<i64>,
    marks: Vec<u8>,
    list: Vec<u32>,
}

/// A right call: two points of one dimension and one face.
fn right() -> Lent {
    Lent {
        k: 1,
        n: 2,
        h: 1,
        points: vec![0, 10],
        live: vec![1; 2],
        order: vec![0, 1, 70],
        normals: vec![1],
        offsets: vec![5],
        marks: vec![0],
        list: vec![80, 81, 82],
    }
}

/// Calls list and gives its answer with the buffer afterwards.
fn called(lent: &Lent) -> (Listing, Vec<u32>) {
    let mut buffer = lent.list.clone();
    let answer = list(
        lent.k,
        lent.n,
        lent.h,
        &lent.points,
        &lent.live,
        &lent.order,
        &lent.normals,
        &lent.offsets,
        &lent.marks,
        &mut buffer,
    );
    (answer, buffer)
}

/// Asks that list refuses with this number and writes nothing.
fn refuses(lent: &Lent, code: u32) {
    let (answer, buffer) = called(lent);
    let refusal = Listing {
        code,
        ..Listing::default()
    };
    assert_eq!(answer, refusal);
    assert_eq!(buffer, lent.list);
}

/// Calls screen with the same arguments but for the list buffer.
fn screened(lent: &Lent) -> Screening {
    screen(
        lent.k,
        lent.n,
        lent.h,
        &lent.points,
        &lent.live,
        &lent.order,
        &lent.normals,
        &lent.offsets,
        &lent.marks,
    )
}

/// Asks that screen refuses with this number and zeros.
fn screen_refuses(lent: &Lent, code: u32) {
    let refusal = Screening {
        code,
        ..Screening::default()
    };
    assert_eq!(screened(lent), refusal);
}

/// A change that brings one refusal about.
type Break = (u32, fn(&mut Lent));

/// One break for each number, in the call's order from the last test to the
/// first: 9, then 11, then 8 down to 4, then 15, then 3 down to 1. Each later one
/// must hide those before it.
const BREAKS: [Break; 11] = [
    (9, |lent| lent.order[0] = 1),
    (11, |lent| lent.marks[0] = 2),
    (8, |lent| lent.normals[0] = 32_768),
    (7, |lent| lent.offsets.push(0)),
    (6, |lent| lent.h = 33),
    (5, |lent| lent.points[0] = -32_769),
    (4, |lent| lent.list.truncate(1)),
    (15, |lent| lent.live[1] = 2),
    (3, |lent| lent.points.push(0)),
    (2, |lent| lent.n = 65_536),
    (1, |lent| lent.k = 5),
];

/// Each break alone: its own number, save that h 33, n 65,536 and k 5 come first
/// though they break lengths too.
#[test]
fn list_refuses_each_alone() {
    for (code, change) in BREAKS {
        let mut lent = right();
        change(&mut lent);
        refuses(&lent, code);
    }
}

/// Any two breaks together: the number that comes first in the call's order.
#[test]
fn list_refuses_the_first_of_two() {
    for (place, (_, late)) in BREAKS.into_iter().enumerate() {
        for (code, early) in BREAKS.into_iter().skip(place + 1) {
            let mut lent = right();
            late(&mut lent);
            early(&mut lent);
            refuses(&lent, code);
        }
    }
}

/// All breaks heaped up from the last test to the first: always the first in the
/// call's order so far.
#[test]
fn list_refuses_in_its_order() {
    let mut lent = right();
    for (code, change) in BREAKS {
        change(&mut lent);
        refuses(&lent, code);
    }
}

/// The breaks of screen: it has no list buffer, so 4 is for a short order.
fn breaks_of_screen() -> [Break; 11] {
    BREAKS.map(|(code, change)| match code {
        4 => (4, (|lent| lent.order.truncate(1)) as fn(&mut Lent)),
        _ => (code, change),
    })
}

/// Screen refuses each break alone with its own number.
#[test]
fn screen_refuses_each_alone() {
    assert_eq!(screened(&right()).code, 0);
    for (code, change) in breaks_of_screen() {
        let mut lent = right();
        change(&mut lent);
        screen_refuses(&lent, code);
    }
}

/// Screen refuses any two breaks together with the number that comes first in
/// the call's order.
#[test]
fn screen_refuses_the_first_of_two() {
    let breaks = breaks_of_screen();
    for (place, (_, late)) in breaks.into_iter().enumerate() {
        for (code, early) in breaks.into_iter().skip(place + 1) {
            let mut lent = right();
            late(&mut lent);
            early(&mut lent);
            screen_refuses(&lent, code);
        }
    }
}

/// Screen with all breaks heaped up from the last test to the first: always the
/// first in the call's order so far.
#[test]
fn screen_refuses_in_its_order() {
    let mut lent = right();
    for (code, change) in breaks_of_screen() {
        change(&mut lent);
        screen_refuses(&lent, code);
    }
}

/// Screen refuses what list refuses where the list buffer is long enough.
#[test]
fn screen_refuses_as_list_does() {
    for (_, change) in breaks_of_screen() {
        let mut lent = right();
        change(&mut lent);
        lent.list = vec![80; lent.n];
        assert_eq!(screened(&lent).code, called(&lent).0.code);
    }
}

/// Screen says 9 for a number twice and for a number at least n.
#[test]
fn screen_refuses_strange_numbers() {
    for order in [[0, 0], [1, 1], [1, 0], [0, 2], [0, u32::MAX]] {
        let answer = screen(1, 2, 1, &[0, 10], &[1; 2], &order, &[1], &[5], &[0]);
        assert_eq!((answer.code, answer.found, answer.number), (9, 0, 0));
    }
}

/// A done list writes the first n places only.
#[test]
fn list_leaves_later_places() {
    let (answer, buffer) = called(&right());
    assert_eq!(answer.code, 0);
    assert_eq!(buffer, [1, 0, 82]);
}

/// The one-point test refuses in rising order; its 11 comes last.
#[test]
fn place_refuses_in_rising_order() {
    let refusal = |code| Placing {
        code,
        ..Placing::default()
    };
    assert_eq!(place(5, 33, &[32_768], &[-32_768], &[], &[2]), refusal(1));
    assert_eq!(place(2, 33, &[32_768], &[-32_768], &[], &[2]), refusal(3));
    assert_eq!(place(1, 33, &[32_768], &[-32_768], &[], &[2]), refusal(5));
    assert_eq!(place(1, 33, &[0], &[-32_768], &[], &[2]), refusal(6));
    assert_eq!(place(1, 1, &[0], &[-32_768], &[], &[2]), refusal(7));
    assert_eq!(place(1, 1, &[0], &[-32_768], &[0], &[2]), refusal(8));
    assert_eq!(place(1, 1, &[0], &[-32_767], &[0], &[2]), refusal(11));
    let done = |measured| Placing {
        inside: 1,
        measured,
        ..Placing::default()
    };
    assert_eq!(place(1, 1, &[0], &[-32_767], &[0], &[0]), done(1));
    assert_eq!(place(1, 0, &[0], &[], &[], &[]), done(0));
}

/// Coordinates, components and offsets, on both sides of both limits.
#[test]
fn ranges_on_both_sides() {
    for (x, code) in [(-32_769, 5), (-32_768, 0), (32_767, 0), (32_768, 5)] {
        assert_eq!(arrange(1, 1, &[x], &[1], &mut [0]).code, code);
        assert_eq!(place(1, 0, &[x], &[], &[], &[]).code, code);
    }
    for (a, code) in [(-32_768, 8), (-32_767, 0), (32_767, 0), (32_768, 8)] {
        assert_eq!(place(1, 1, &[0], &[a], &[0], &[0]).code, code);
    }
    for (m, code) in [(-M - 1, 8), (-M, 0), (M, 0), (M + 1, 8)] {
        assert_eq!(place(1, 1, &[0], &[0], &[m], &[0]).code, code);
    }
    for x in [i32::MIN, i32::MAX] {
        assert_eq!(arrange(1, 1, &[x], &[1], &mut [0]).code, 5);
        assert_eq!(place(1, 1, &[0], &[x], &[0], &[0]).code, 8);
        assert_eq!(place(1, 1, &[0], &[0], &[i64::MIN], &[0]).code, 8);
    }
}

/// Lengths one too short and one too long.
#[test]
fn lengths_on_both_sides() {
    for (length, code) in [(5, 3), (6, 0), (7, 3)] {
        assert_eq!(
            arrange(2, 3, &vec![0; length], &[1; 3], &mut [0; 3]).code,
            code
        );
    }
    for (length, code) in [(2, 4), (3, 0), (4, 0)] {
        assert_eq!(
            arrange(2, 3, &[0; 6], &[1; 3], &mut vec![0; length]).code,
            code
        );
    }
    for (length, code) in [(3, 7), (4, 0), (5, 7)] {
        let normals = vec![0; length];
        assert_eq!(place(2, 2, &[0; 2], &normals, &[0; 2], &[0; 2]).code, code);
    }
    for (length, code) in [(1, 7), (2, 0), (3, 7)] {
        let offsets = vec![0; length];
        assert_eq!(place(2, 2, &[0; 2], &[0; 4], &offsets, &[0; 2]).code, code);
    }
    for (length, code) in [(2, 3), (3, 0), (4, 3)] {
        assert_eq!(place(3, 0, &vec![0; length], &[], &[], &[]).code, code);
    }
}

/// Counts of points and faces on both sides of their limits.
#[test]
fn counts_on_both_sides() {
    for (n, code) in [(65_535, 0), (65_536, 2)] {
        assert_eq!(
            arrange(1, n, &vec![0; n], &vec![1; n], &mut vec![0; n]).code,
            code
        );
    }
    for (h, code) in [(0, 0), (32, 0), (33, 6)] {
        let (normals, offsets, marks) = (vec![0; h], vec![0; h], vec![0; h]);
        assert_eq!(place(1, h, &[0], &normals, &offsets, &marks).code, code);
    }
}

/// The order or the list buffer being short is number 4 for list alike.
#[test]
fn list_tests_both_buffers() {
    let mut lent = right();
    lent.order.truncate(1);
    refuses(&lent, 4);
    let mut lent = right();
    lent.list.truncate(1);
    refuses(&lent, 4);
    let mut lent = right();
    lent.order.truncate(2);
    lent.list.truncate(2);
    assert_eq!(called(&lent).0.code, 0);
}

/// The greatest numbers of all neither overflow nor panic.
#[test]
fn greatest_numbers_are_refused() {
    let most = usize::MAX;
    assert_eq!(arrange(most, most, &[], &[], &mut []).code, 1);
    assert_eq!(arrange(4, most, &[], &[], &mut []).code, 2);
    assert_eq!(arrange(4, most / 4 + 1, &[], &[], &mut []).code, 2);
    assert_eq!(place(4, most, &[0; 4], &[], &[], &[]).code, 6);
    let answer = list(4, 0, most / 4 + 1, &[], &[], &[], &[], &[], &[], &mut []);
    assert_eq!(answer.code, 6);
    assert_eq!(open_slots(4, 0, most, &[], &[], &[], &[], &[], &[]), Err(6));
    assert_eq!(screen(4, most, 0, &[], &[], &[], &[], &[], &[]).code, 2);
    assert_eq!(screen(4, 0, most, &[], &[], &[], &[], &[], &[]).code, 6);
}

/// The empty shelf listed: done, nothing in its lists, no visits.
#[test]
fn empty_shelf_listed() {
    let mut buffer = [6];
    let answer = list(1, 0, 1, &[], &[], &[], &[1], &[5], &[1], &mut buffer);
    assert_eq!((answer, buffer), (Listing::default(), [6]));
    assert_eq!(
        open_slots(1, 0, 1, &[], &[], &[], &[1], &[5], &[1]),
        Ok(vec![])
    );
}
