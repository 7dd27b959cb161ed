//! The take and the withdraw call, beside the same tests and the same change by hand, and beside the arrange call on the tree.

use crate::clock::{best_of, Contender};
use crate::library;
use crate::measured::{Call, Measured, CHECK};
use crate::stock::{Stock, GREATEST, LEAST};

/// Whether live bytes are as they must be. All are looked at, which lets the compiler take many at a time.
fn right_bytes(n: usize, live: &[u8]) -> bool {
    live.len() == n && live.iter().fold(true, |right, &byte| right & (byte < 2))
}

/// Whether each of these coordinates is in range, in the same way.
fn in_range(point: &[i32]) -> bool {
    let within = |x| (LEAST..=GREATEST).contains(x);
    point.iter().fold(true, |right, x| right & within(x))
}

/// Takes a point in by hand, with the library's tests of what is lent: the number, if there was none to refuse.
fn take(k: usize, points: &mut [i32], live: &mut [u8], point: &[i32]) -> Option<usize> {
    let n = points.len() / k;
    let numbers = points.chunks_exact(k).zip(live.iter());
    let own = |right, (own, &byte): (&[i32], &u8)| right & ((byte == 0) | in_range(own));
    let right = right_bytes(n, live) && numbers.fold(true, own) && in_range(point);
    let number = live.iter().position(|&byte| byte == 0);
    let number = number.filter(|_| right && point.len() == k)?;
    points[number * k..][..k].copy_from_slice(point);
    live[number] = 1;
    Some(number)
}

/// Withdraws a number by hand, with the library's tests, and says whether it was done.
fn withdraw(n: usize, number: u32, live: &mut [u8]) -> bool {
    let right = right_bytes(n, live) && live.get(number as usize) == Some(&1);
    if right {
        live[number as usize] = 0;
    }
    right
}

/// Stops where the library does not take the last number in and withdraw it again as it is done by hand.
fn agree(stock: &Stock, point: &[i32]) {
    let (k, n, last) = (stock.k, stock.n, stock.n - 1);
    let (mut ours, mut theirs) = (stock.clone(), stock.clone());
    let code = library::withdraw(n, last as u32, &mut ours.live);
    assert!(code == 0 && withdraw(n, last as u32, &mut theirs.live));
    assert!(ours.live == theirs.live, "the bytes after withdraw");
    let answer = library::take(k, n, &mut ours.points, &mut ours.live, point);
    let taken = take(k, &mut theirs.points, &mut theirs.live, point);
    assert_eq!((answer.code, Some(answer.number as usize)), (0, taken));
    assert!(ours.points == theirs.points && ours.live == theirs.live);
    assert_eq!(taken, Some(last), "the last number");
}

/// Measures both calls on a full shelf, whose last number alone is dead for the take: all bytes are read to find it. Each change is undone by its
/// byte.
pub fn measure(stock: &Stock, order: &[u32], rounds: usize) -> Measured {
    let (k, n, last) = (stock.k, stock.n, stock.n - 1);
    let point = stock.points[..k].to_vec();
    agree(stock, &point);
    let mut stocks: [Stock; 4] = std::array::from_fn(|_| stock.clone());
    let [a, b, c, d] = &mut stocks;
    (a.live[last], b.live[last]) = (0, 0);
    let contenders = vec![
        Contender::new("take", || {
            let answer = library::take(k, n, &mut a.points, &mut a.live, &point);
            a.live[answer.number as usize] = 0;
        }),
        Contender::new("take by hand", || {
            let number = take(k, &mut b.points, &mut b.live, &point);
            b.live[number.unwrap_or(0)] = 0;
        }),
        Contender::new("withdraw", || {
            let code = library::withdraw(n, last as u32, &mut c.live);
            c.live[last] = 1 - code as u8;
        }),
        Contender::new("withdraw by hand", || {
            let done = withdraw(n, last as u32, &mut d.live);
            d.live[last] = u8::from(done);
        }),
        Contender::new(CHECK, || library::check(stock, order)),
    ];
    Measured {
        call: Call::Changes,
        points: stock.kind,
        k,
        n,
        asked: None,
        times: best_of(rounds, contenders),
    }
}
