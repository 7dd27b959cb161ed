//! Take and withdraw, made by the library and by the second program, which must agree in the answer and in every lent place afterwards; and
//! each held to its own words.

use crate::calls::{lend, lend_to_write, same};
use crate::lent::Lent;
use crate::live::count;
use hornherder::raw;
use second::live::{DEAD, LIVE};

/// Compares take, also with other dead coordinates and with other numbers behind what is lent: the answer, and all that was lent
/// afterwards. Where it is done, the same with the point on its number.
pub fn take(lent: &Lent) -> (raw::Taking, Lent) {
    let Lent { k, n, .. } = *lent;
    let mut theirs = lent.clone();
    let expected = second::take(k, n, &mut theirs.points, &mut theirs.live, &lent.point);
    let (answer, ours) = taken(lent);
    let told = (answer.code, answer.number);
    assert_eq!(told, (expected.code, expected.number), "take of {lent:?}");
    same("take", lent, &ours.points, &theirs.points);
    same("take", lent, &ours.live, &theirs.live);
    hold_taking(lent, answer, &ours);
    let behind = ("by what is behind", lent.with_other_behind());
    let dead = lent.with_other_dead();
    let dead = dead.map(|other| ("by other dead coordinates", other));
    for (why, other) in [behind].into_iter().chain(dead) {
        let (again, after) = taken(&other);
        assert_eq!(again, answer, "take {why} of {lent:?}");
        hold_taking(&other, again, &after);
    }
    (answer, ours)
}

/// Calls the library's take, with other numbers right behind each slice: the answer, and all that was lent afterwards.
fn taken(lent: &Lent) -> (raw::Taking, Lent) {
    let Lent { k, n, .. } = *lent;
    let mut ours = lent.clone();
    let answer = lend_to_write(lent, &mut ours.points, |points| {
        lend_to_write(lent, &mut ours.live, |live| {
            lend(lent, &lent.point, |point| {
                raw::take(k, n, points, live, point)
            })
        })
    });
    (answer, ours)
}

/// Asks of a refusal that its number is 0 and nothing was written; of a done take that the number was the lowest dead one, that it has the
/// point now and is live, that no other place changed, and that one more number is live.
fn hold_taking(before: &Lent, answer: raw::Taking, after: &Lent) {
    let mut wanted = before.clone();
    if answer.code == 0 {
        let lowest = before.live.iter().position(|byte| *byte == DEAD);
        let number = lowest.expect("a dead number");
        assert_eq!(answer.number as usize, number, "taken of {before:?}");
        wanted.points[number * before.k..][..before.k].copy_from_slice(&before.point);
        wanted.live[number] = LIVE;
        assert_eq!(after.v(), before.v() + 1, "one more of {before:?}");
    } else {
        assert_eq!(answer.number, 0, "refusal of {before:?}");
    }
    same(
        "the points after take",
        before,
        &after.points,
        &wanted.points,
    );
    same("the bytes after take", before, &after.live, &wanted.live);
}

/// Compares withdraw, also with other numbers behind the live bytes: the answer, and all that was lent afterwards.
pub fn withdraw(lent: &Lent) -> (u32, Lent) {
    let mut theirs = lent.live.clone();
    let expected = second::withdraw(lent.n, lent.number, &mut theirs);
    let (answer, ours) = withdrawn(lent);
    assert_eq!(answer, expected, "withdraw of {lent:?}");
    same("withdraw", lent, &ours.live, &theirs);
    hold_withdrawing(lent, answer, &ours.live);
    let (again, after) = withdrawn(&lent.with_other_behind());
    assert_eq!(again, answer, "withdraw by what is behind of {lent:?}");
    same("withdraw by what is behind", lent, &after.live, &theirs);
    (answer, ours)
}

/// Calls the library's withdraw, with other numbers right behind the live bytes.
fn withdrawn(lent: &Lent) -> (u32, Lent) {
    let mut ours = lent.clone();
    let answer = lend_to_write(lent, &mut ours.live, |live| {
        raw::withdraw(lent.n, lent.number, live)
    });
    (answer, ours)
}

/// Asks of a refusal that nothing was written, and of a done withdrawal that its number was live and is dead, that no other byte changed,
/// and that one number fewer is live.
fn hold_withdrawing(before: &Lent, code: u32, after: &[u8]) {
    let mut wanted = before.live.clone();
    if code == 0 {
        assert!(before.is_live(before.number), "withdrawn of {before:?}");
        wanted[before.number as usize] = DEAD;
        assert_eq!(count(after) + 1, before.v(), "one fewer of {before:?}");
    }
    same("the bytes after withdraw", before, after, &wanted);
}
