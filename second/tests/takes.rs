//! Taking and withdrawing: worked examples, refusals, the lowest dead number, and
//! random sequences of calls against a plain shelf of points that come and go.

use second::{arrange, list, take, withdraw, Listing, Taking};

/// The arguments of a take, all right at first.
#[derive(Clone, Debug, PartialEq)]
struct Lent {
    k: usize,
    n: usize,
    points: Vec<i32>,
    live: Vec<u8>,
    point: Vec<i32>,
}

/// A right call: four numbers in two dimensions, 1 and 3 dead with coordinates
/// out of range, and a new point.
fn right() -> Lent {
    Lent {
        k: 2,
        n: 4,
        points: vec![1, 2, i32::MIN, i32::MAX, 5, 6, 40_000, -40_000],
        live: vec![1, 0, 1, 0],
        point: vec![7, 8],
    }
}

/// Takes, and gives the answer with the lent slices afterwards.
fn taken(lent: &Lent) -> (Taking, Lent) {
    let mut after = lent.clone();
    let (points, live) = (&mut after.points, &mut after.live);
    let answer = take(lent.k, lent.n, points, live, &lent.point);
    (answer, after)
}

/// Asks that take refuses with this number, number 0 and nothing written.
fn take_refuses(lent: &Lent, code: u32) {
    let (answer, after) = taken(lent);
    assert_eq!(answer, Taking { code, number: 0 });
    assert_eq!(after, *lent);
}

/// Withdraws, and gives the answer with the live bytes afterwards.
fn withdrawn(n: usize, number: u32, live: &[u8]) -> (u32, Vec<u8>) {
    let mut after = live.to_vec();
    let code = withdraw(n, number, &mut after);
    (code, after)
}

/// Asks that withdraw refuses with this number and nothing written.
fn withdraw_refuses(n: usize, number: u32, live: &[u8], code: u32) {
    assert_eq!(withdrawn(n, number, live), (code, live.to_vec()));
}

/// A done answer of take.
fn done(number: u32) -> Taking {
    Taking { code: 0, number }
}

/// The total live: how many bytes are 1.
fn total(live: &[u8]) -> usize {
    live.iter().filter(|&&byte| byte == 1).count()
}

/// The right call takes number 1: its coordinates and its byte are written and
/// nothing else is, the dead number 3 with its coordinates among the rest.
#[test]
fn right_take() {
    let (answer, after) = taken(&right());
    assert_eq!(answer, done(1));
    assert_eq!(after.points, [1, 2, 7, 8, 5, 6, 40_000, -40_000]);
    assert_eq!(after.live, [1, 1, 1, 0]);
}

/// Takes one after another use the dead numbers from the lowest up; when all are
/// live there is no room.
#[test]
fn takes_until_full() {
    let (first, mut lent) = taken(&right());
    lent.point = vec![-9, 9];
    let (second, mut lent) = taken(&lent);
    assert_eq!((first, second), (done(1), done(3)));
    assert_eq!(lent.points, [1, 2, 7, 8, 5, 6, -9, 9]);
    assert_eq!(lent.live, [1; 4]);
    lent.point = vec![0, 0];
    take_refuses(&lent, 16);
}

/// Withdrawing clears one byte, of each live number in turn.
#[test]
fn right_withdrawals() {
    assert_eq!(withdrawn(4, 0, &[1, 0, 1, 0]), (0, vec![0, 0, 1, 0]));
    assert_eq!(withdrawn(4, 2, &[1, 0, 1, 0]), (0, vec![1, 0, 0, 0]));
    assert_eq!(withdrawn(4, 3, &[1; 4]), (0, vec![1, 1, 1, 0]));
    assert_eq!(withdrawn(1, 0, &[1]), (0, vec![0]));
    withdraw_refuses(1, 0, &[0], 17);
}

/// A number withdrawn is taken again, before a higher one that was dead longer.
#[test]
fn freed_room_is_used_first() {
    let mut lent = right();
    assert_eq!(withdraw(4, 0, &mut lent.live), 0);
    let (answer, after) = taken(&lent);
    assert_eq!(answer, done(0));
    assert_eq!(after.points[..2], [7, 8]);
    assert_eq!(after.live, [1, 0, 1, 0]);
}

/// A change that brings one refusal of take about.
type Break = (u32, fn(&mut Lent));

/// Breaks for each number, in the call's order from the last test to the first:
/// 16, then 5, then 15, then 3 down to 1.
const BREAKS: [Break; 19] = [
    (16, |lent| {
        lent.points[2..].fill(0);
        lent.live.fill(1);
    }),
    (5, |lent| lent.points[0] = -32_769),
    (5, |lent| lent.points[5] = 32_768),
    (5, |lent| lent.point[0] = 32_768),
    (5, |lent| lent.point[1] = i32::MIN),
    (15, |lent| lent.live[0] = 2),
    (15, |lent| lent.live[3] = 255),
    (15, |lent| lent.live.push(0)),
    (15, |lent| lent.live.truncate(3)),
    (15, |lent| lent.live.clear()),
    (3, |lent| lent.points.push(0)),
    (3, |lent| lent.points.truncate(7)),
    (3, |lent| lent.point.push(0)),
    (3, |lent| lent.point.truncate(1)),
    (3, |lent| lent.point.clear()),
    (2, |lent| lent.n = 65_536),
    (2, |lent| lent.n = usize::MAX),
    (1, |lent| lent.k = 5),
    (1, |lent| lent.k = 0),
];

/// Each break alone: its own number, and nothing written.
#[test]
fn take_refuses_each_alone() {
    for (code, change) in BREAKS {
        let mut lent = right();
        change(&mut lent);
        take_refuses(&lent, code);
    }
}

/// Any break with one of another number that comes before it in the call's order:
/// that number.
#[test]
fn take_refuses_the_first_of_two() {
    for (place, (second, late)) in BREAKS.into_iter().enumerate() {
        let earlier = BREAKS.into_iter().skip(place + 1);
        for (first, early) in earlier.filter(|&(first, _)| first != second) {
            let mut lent = right();
            late(&mut lent);
            early(&mut lent);
            take_refuses(&lent, first);
        }
    }
}

/// The slice and the new point wrong together in one way: 3 once, 5 once.
#[test]
fn slice_and_new_point_wrong_together() {
    let mut lent = right();
    lent.points.truncate(4);
    lent.point.truncate(1);
    take_refuses(&lent, 3);
    let mut lent = right();
    (lent.points[0], lent.point[0]) = (32_768, 32_768);
    take_refuses(&lent, 5);
}

/// The new point's coordinates on both sides of both limits, in each dimension.
#[test]
fn ranges_of_the_new_point() {
    let rows = [
        (i32::MIN, 5),
        (-32_769, 5),
        (-32_768, 0),
        (32_767, 0),
        (32_768, 5),
        (i32::MAX, 5),
    ];
    for k in 1..=4 {
        for s in 0..k {
            for (x, code) in rows {
                let mut point = vec![0; k];
                point[s] = x;
                let (mut points, mut live) = (vec![9; k], [0]);
                let answer = take(k, 1, &mut points, &mut live, &point);
                let after = if code == 0 { point } else { vec![9; k] };
                assert_eq!((answer.code, points), (code, after));
            }
        }
    }
}

/// The live points of the slice are tested, the dead ones passed over, whichever
/// number it is.
#[test]
fn coordinates_of_live_numbers_only() {
    for number in 0..4 {
        for x in [i32::MIN, -32_769, 32_768, i32::MAX] {
            let mut lent = right();
            lent.points[2 * number + 1] = x;
            match lent.live[number] {
                1 => take_refuses(&lent, 5),
                _ => assert_eq!(taken(&lent).0, done(1)),
            }
        }
    }
}

/// The new point's length is k, not that of the slice: one short and one long of
/// each k, and right where there is a single number.
#[test]
fn lengths_of_the_new_point() {
    for k in 1..=4 {
        for length in 0..=5 {
            let code = if length == k { 0 } else { 3 };
            let lent = Lent {
                k,
                n: 1,
                points: vec![0; k],
                live: vec![0],
                point: vec![6; length],
            };
            assert_eq!(taken(&lent).0.code, code);
        }
    }
}

/// For all live bytes of up to eight numbers: the lowest dead one is taken and
/// only it is written, or 16.
#[test]
fn lowest_dead_number() {
    for n in 0..=8 {
        for pattern in 0..1 << n {
            let live: Vec<u8> = (0..n).map(|number| (pattern >> number & 1) as u8).collect();
            let lent = Lent {
                k: 1,
                n,
                points: (0..n as i32).collect(),
                live,
                point: vec![-7],
            };
            takes_the_lowest(&lent);
        }
    }
}

/// Asks that the lowest dead number is taken and only it is written, or 16.
fn takes_the_lowest(lent: &Lent) {
    let Some(number) = lent.live.iter().position(|&byte| byte == 0) else {
        return take_refuses(lent, 16);
    };
    let mut expected = lent.clone();
    expected.points[number] = -7;
    expected.live[number] = 1;
    assert_eq!(taken(lent), (done(number as u32), expected));
}

/// For all live bytes of up to eight numbers: each live number is withdrawn and
/// only its byte is written; for the others it is 17.
#[test]
fn every_withdrawal() {
    for n in 0..=8 {
        for pattern in 0..1 << n {
            let live: Vec<u8> = (0..n).map(|number| (pattern >> number & 1) as u8).collect();
            for number in 0..n + 2 {
                if live.get(number) != Some(&1) {
                    withdraw_refuses(n, number as u32, &live, 17);
                    continue;
                }
                let mut after = live.clone();
                after[number] = 0;
                assert_eq!(withdrawn(n, number as u32, &live), (0, after));
            }
        }
    }
}

/// Withdraw refuses each alone: 17 for a dead number and for those not below n,
/// 15 for live bytes of another length or another byte, 2 for n.
#[test]
fn withdraw_refuses_each_alone() {
    for number in [1, 3, 4, 5, 65_535, 65_536, u32::MAX] {
        withdraw_refuses(4, number, &[1, 0, 1, 0], 17);
    }
    for live in [&[][..], &[1], &[1; 3], &[1; 5], &[1; 8]] {
        withdraw_refuses(4, 0, live, 15);
    }
    for byte in 2..=255 {
        for place in 0..4 {
            let mut live = [1, 0, 1, 0];
            live[place] = byte;
            withdraw_refuses(4, 2, &live, 15);
        }
    }
    withdraw_refuses(65_536, 0, &vec![1; 65_536], 2);
}

/// Withdraw with two faults at once: 2 before 15 before 17.
#[test]
fn withdraw_refuses_the_first_of_two() {
    for number in [0, 1, 4, u32::MAX] {
        withdraw_refuses(65_536, number, &[1, 0, 1, 0], 2);
        withdraw_refuses(65_536, number, &[2; 4], 2);
        withdraw_refuses(usize::MAX, number, &[], 2);
        withdraw_refuses(4, number, &[1, 0, 1], 15);
        withdraw_refuses(4, number, &[1, 0, 1, 2], 15);
        withdraw_refuses(4, number, &[2, 0, 1, 0], 15);
    }
    withdraw_refuses(65_536, 1, &vec![0; 65_536], 2);
}

/// The shelf of no numbers has none to take and none to withdraw.
#[test]
fn no_numbers() {
    let none = Lent {
        k: 1,
        n: 0,
        points: vec![],
        live: vec![],
        point: vec![0],
    };
    take_refuses(&none, 16);
    withdraw_refuses(0, 0, &[], 17);
    withdraw_refuses(0, u32::MAX, &[], 17);
    withdraw_refuses(0, 0, &[0], 15);
}

/// The greatest counts of all neither overflow nor panic.
#[test]
fn greatest_counts_are_refused() {
    let most = usize::MAX;
    let code = |k, n, point: &[i32]| take(k, n, &mut [], &mut [], point).code;
    assert_eq!(code(most, most, &[]), 1);
    assert_eq!(code(4, most, &[]), 2);
    assert_eq!(code(4, most / 4 + 1, &[]), 2);
    assert_eq!(code(4, 65_535, &[0; 4]), 3);
    assert_eq!(code(4, 0, &[]), 3);
    assert_eq!(code(4, 0, &[0; 4]), 16);
}

/// A full shelf: the last number is taken and withdrawn like any other.
#[test]
fn last_number() {
    let mut lent = Lent {
        k: 4,
        n: 65_535,
        points: vec![0; 4 * 65_535],
        live: vec![1; 65_535],
        point: vec![1, 2, 3, 4],
    };
    take_refuses(&lent, 16);
    assert_eq!(withdraw(65_535, 65_534, &mut lent.live), 0);
    let (answer, after) = taken(&lent);
    assert_eq!(answer, done(65_534));
    assert_eq!(after.points[4 * 65_534 - 1..], [0, 1, 2, 3, 4]);
    assert_eq!(after.live[65_534], 1);
}

/// What list, with no faces, says of an old order: 0 or 9. Arrange says by its
/// already which of the two it is.
fn asked(k: usize, points: &[i32], live: &[u8], order: &[u32]) -> u32 {
    let n = live.len();
    let mut places = vec![88; n];
    let listing = list(k, n, 0, points, live, order, &[], &[], &[], &mut places);
    let arranging = arrange(k, n, points, live, &mut order.to_vec());
    let already = u32::from(listing.code == 0);
    assert_eq!((arranging.code, arranging.already), (0, already));
    listing.code
}

/// Points 0 and 10 with order 0 1. With number 1 withdrawn the order passes;
/// whether it does with a new point there goes by that point.
#[test]
fn old_order_with_number_1_new() {
    let order = [0, 1];
    for (x, code) in [(-1, 9), (0, 0), (3, 0), (10, 0)] {
        let (mut points, mut live) = ([0, 10], [1, 1]);
        assert_eq!(withdraw(2, 1, &mut live), 0);
        assert_eq!(asked(1, &points, &live, &order), 0);
        assert_eq!(take(1, 2, &mut points, &mut live, &[x]), done(1));
        assert_eq!(asked(1, &points, &live, &order), code);
    }
}

/// The same with number 0: its withdrawal makes the order 9, until a new point
/// stands there that comes before 10; on a tie the number decides.
#[test]
fn old_order_with_number_0_new() {
    let order = [0, 1];
    for (x, code) in [(0, 0), (9, 0), (10, 0), (11, 9)] {
        let (mut points, mut live) = ([0, 10], [1, 1]);
        assert_eq!(withdraw(2, 0, &mut live), 0);
        assert_eq!(asked(1, &points, &live, &order), 9);
        assert_eq!(take(1, 2, &mut points, &mut live, &[x]), done(0));
        assert_eq!(asked(1, &points, &live, &order), code);
    }
}

/// A withdrawn picture is listed no more, and the new one at its number is.
#[test]
fn lists_go_by_the_live_pictures() {
    let (mut points, mut live) = ([0, 10, 20], [1, 1, 1]);
    let listed = |points: &[i32], live: &[u8]| {
        let (mut order, mut places) = ([77; 3], [88; 3]);
        assert_eq!(arrange(1, 3, points, live, &mut order).code, 0);
        let answer = list(1, 3, 1, points, live, &order, &[1], &[5], &[0], &mut places);
        (counts(answer), places)
    };
    assert_eq!(listed(&points, &live), ([0, 2, 1], [1, 2, 0]));
    assert_eq!(withdraw(3, 1, &mut live), 0);
    assert_eq!(listed(&points, &live), ([0, 1, 1], [2, 0, 88]));
    assert_eq!(take(1, 3, &mut points, &mut live, &[4]), done(1));
    assert_eq!(listed(&points, &live), ([0, 1, 2], [2, 1, 0]));
}

/// The code, inside and outside of a list.
fn counts(answer: Listing) -> [u32; 3] {
    [answer.code, answer.inside, answer.outside]
}

/// A plain shelf: at each number a point or none.
type Plain = Vec<Option<Vec<i32>>>;

/// The live pictures of the lent slices.
fn plain(lent: &Lent) -> Plain {
    let points = lent.points.chunks(lent.k).zip(&lent.live);
    let picture = |(point, &byte): (&[i32], &u8)| (byte == 1).then(|| point.to_vec());
    points.map(picture).collect()
}

/// The next number that looks random, from `least` to `greatest`.
fn throw(state: &mut u64, least: i64, greatest: i64) -> i64 {
    *state ^= *state << 13;
    *state ^= *state >> 7;
    *state ^= *state << 17;
    least + (*state % (greatest - least + 1) as u64) as i64
}

/// So many numbers that look random, from `least` to `greatest`, in 32 bits.
fn row(state: &mut u64, count: usize, least: i64, greatest: i64) -> Vec<i32> {
    (0..count)
        .map(|_| throw(state, least, greatest) as i32)
        .collect()
}

/// A random shelf of 0 to 12 numbers, about half of them live.
fn thrown(state: &mut u64, round: usize) -> Lent {
    let (k, n) = (1 + round % 4, round % 13);
    Lent {
        k,
        n,
        points: row(state, k * n, -9, 9),
        live: (0..n).map(|_| throw(state, 0, 1) as u8).collect(),
        point: vec![0; k],
    }
}

/// A random take: now and then of a point out of range. Says whether it was done,
/// and asks that the plain shelf does the same.
fn random_take(state: &mut u64, lent: &mut Lent) -> bool {
    lent.point = row(state, lent.k, -9, 9);
    if throw(state, 0, 9) == 0 {
        lent.point[0] = 32_768;
        take_refuses(lent, 5);
        return false;
    }
    let mut expected = plain(lent);
    let Some(number) = expected.iter().position(Option::is_none) else {
        take_refuses(lent, 16);
        return false;
    };
    expected[number] = Some(lent.point.clone());
    let (answer, after) = taken(lent);
    assert_eq!(answer, done(number as u32));
    assert_eq!(plain(&after), expected);
    *lent = after;
    true
}

/// A random withdrawal: of any number below n or the one after. Says whether it
/// was done, and asks that the plain shelf does the same.
fn random_withdrawal(state: &mut u64, lent: &mut Lent) -> bool {
    let number = throw(state, 0, lent.n as i64) as u32;
    let mut expected = plain(lent);
    let picture = expected.get_mut(number as usize).and_then(Option::take);
    if picture.is_none() {
        withdraw_refuses(lent.n, number, &lent.live, 17);
        return false;
    }
    assert_eq!(withdraw(lent.n, number, &mut lent.live), 0);
    assert_eq!(plain(lent), expected);
    true
}

/// Random sequences of calls: after each of them the total live and the
/// withdrawals done are the starting total and the takes done.
#[test]
fn totals_of_sequences() {
    let mut state = 131;
    let mut all = [0; 2];
    for round in 0..300 {
        let mut lent = thrown(&mut state, round);
        let start = total(&lent.live);
        let (mut takes, mut withdrawals) = (0, 0);
        for _ in 0..60 {
            match throw(&mut state, 0, 1) {
                0 => takes += usize::from(random_take(&mut state, &mut lent)),
                _ => withdrawals += usize::from(random_withdrawal(&mut state, &mut lent)),
            }
            assert_eq!(total(&lent.live) + withdrawals, start + takes);
        }
        all = [all[0] + takes, all[1] + withdrawals];
    }
    assert!(all.iter().all(|&count| count >= 1_000), "{all:?}");
}

/// Random sequences of calls with an order from before them: it passes exactly
/// if it begins with the order of the live pictures as they now are.
#[test]
fn old_orders_after_sequences() {
    let mut state = 137;
    let mut seen = [0; 2];
    for round in 0..600 {
        let mut lent = thrown(&mut state, round);
        let (k, n) = (lent.k, lent.n);
        let mut order = vec![77; n];
        assert_eq!(arrange(k, n, &lent.points, &lent.live, &mut order).code, 0);
        for _ in 0..4 {
            match throw(&mut state, 0, 1) {
                0 => random_take(&mut state, &mut lent),
                _ => random_withdrawal(&mut state, &mut lent),
            };
            let v = total(&lent.live);
            let mut anew = vec![77; n];
            assert_eq!(arrange(k, n, &lent.points, &lent.live, &mut anew).code, 0);
            let code = if order[..v] == anew[..v] { 0 } else { 9 };
            assert_eq!(asked(k, &lent.points, &lent.live, &order), code);
            seen[usize::from(code == 9)] += 1;
        }
    }
    assert!(seen.iter().all(|&count| count >= 100), "{seen:?}");
}

/// All numbers withdrawn and then all taken again: the shelf holds the new
/// points, number by number.
#[test]
fn all_withdrawn_and_taken_again() {
    let mut state = 139;
    for round in 0..40 {
        let mut lent = thrown(&mut state, round);
        let (k, n) = (lent.k, lent.n);
        lent.live.fill(1);
        for number in (0..n as u32).rev() {
            assert_eq!(withdraw(n, number, &mut lent.live), 0);
        }
        assert_eq!(total(&lent.live), 0);
        let new = row(&mut state, k * n, -32_768, 32_767);
        for (number, point) in new.chunks(k).enumerate() {
            let (points, live) = (&mut lent.points, &mut lent.live);
            assert_eq!(take(k, n, points, live, point), done(number as u32));
        }
        assert_eq!((lent.points, total(&lent.live)), (new, n));
    }
}
