//! Each call made by the library and by the second program, which must agree in the answer and in
//! every lent place afterwards.

use crate::bounds;
use crate::lent::Lent;
use crate::margins;
use crate::reasons;
use hornherder::raw;
use std::fmt::Debug;

/// Compares arrange, also with other numbers behind place v, with other dead coordinates and on what it leaves: the answer, and the order
/// afterwards.
pub fn arrange(lent: &Lent) -> (raw::Arranging, Vec<u32>) {
    let Lent { k, n, .. } = *lent;
    let mut theirs = lent.order.clone();
    let expected = second::arrange(k, n, &lent.points, &lent.live, &mut theirs);
    let (answer, order) = arranged(lent);
    let told = (answer.code, answer.already);
    assert_eq!(
        told,
        (expected.code, expected.already),
        "arrange of {lent:?}"
    );
    same("arrange", lent, &order, &theirs);
    hold_arranging(lent, answer, &order);
    let behind = ("by what is behind", lent.with_other_behind());
    let dead = lent.with_other_dead();
    let dead = dead.map(|other| ("by other dead coordinates", other));
    for (why, other) in [behind].into_iter().chain(dead) {
        arranged_alike(why, &other, answer, &order);
    }
    (answer, order)
}

/// Calls the library's arrange, with other numbers right behind each slice: the answer, and the order afterwards.
fn arranged(lent: &Lent) -> (raw::Arranging, Vec<u32>) {
    let mut order = lent.order.clone();
    let answer = lend_live(lent, |points, live| {
        lend_to_write(lent, &mut order, |order| {
            raw::arrange(lent.k, lent.n, points, live, order)
        })
    });
    (answer, order)
}

/// Asks of a refusal that it has already 0 and nothing was written; of a done call that the places from v on are kept, that already is 1
/// exactly where no place differs, and that what it leaves already is the tree.
fn hold_arranging(before: &Lent, answer: raw::Arranging, order: &[u32]) {
    kept("arrange", before, answer.code, &before.order, order);
    if answer.code != 0 {
        assert_eq!(answer.already, 0, "refusal of {before:?}");
        return;
    }
    let differs = before.order != order;
    assert_eq!(answer.already, u32::from(!differs), "already of {before:?}");
    let (again, after) = arranged(&before.with_order(order));
    assert_eq!(
        (again.code, again.already),
        (0, 1),
        "arrange again of {before:?}"
    );
    same("arrange again", before, &after, order);
}

/// Asks that the library's arrange answers another call with what it answered, and with the same first v places.
fn arranged_alike(why: &str, other: &Lent, answer: raw::Arranging, order: &[u32]) {
    let (again, after) = arranged(other);
    assert_eq!(again, answer, "arrange {why} of {other:?}");
    kept("arrange", other, again.code, &other.order, &after);
    if answer.code == 0 {
        let v = other.v();
        let (first, second) = (&after[..v], &order[..v]);
        same(&format!("arrange {why}"), other, first, second);
    }
}

/// The shelf of right points: the same with the order that arrange leaves.
pub fn shelf(lent: &Lent) -> Lent {
    let (answer, order) = arrange(lent);
    assert_eq!(answer.code, 0, "arrange of {lent:?}");
    lent.with_order(&order)
}

/// Whether the order of right points already is their tree. The calls that need the tree must go by that too.
pub fn is_shelf(lent: &Lent) -> bool {
    let answer = arrange(lent).0;
    assert_eq!(answer.code, 0, "arrange of {lent:?}");
    let code = if answer.already == 1 { 0 } else { 9 };
    assert_eq!(screened(lent).code, code, "screen of {lent:?}");
    assert_eq!(
        listed_with_room(lent).0.code,
        code,
        "list with room of {lent:?}"
    );
    answer.already == 1
}

/// Compares list, also with the calls that must be answered alike: the answer, and the list buffer afterwards.
pub fn list(lent: &Lent) -> (raw::Listing, Vec<u32>) {
    let mut theirs = lent.clone();
    let expected = second::list(
        lent.k,
        lent.n,
        lent.h,
        &lent.points,
        &lent.live,
        &lent.order,
        &lent.normals,
        &lent.offsets,
        &lent.marks,
        &mut theirs.list,
    );
    let (answer, ours) = listed(lent);
    let numbers = (answer.code, answer.inside, answer.outside, answer.visits);
    let theirs_numbers = (
        expected.code,
        expected.inside,
        expected.outside,
        expected.visits,
    );
    assert_eq!(numbers, theirs_numbers, "list of {lent:?}");
    same_lent("list", lent, &ours, &theirs);
    kept("list", lent, answer.code, &lent.list, &ours.list);
    for (why, other) in lent.alike() {
        listed_alike(why, &other, answer, &ours);
    }
    if answer.code == 0 {
        let listed = answer.inside + answer.outside;
        assert_eq!(listed as usize, lent.v(), "the counts of {lent:?}");
        bounds::hold(lent, answer.visits);
    }
    (answer, ours.list)
}

/// Calls the library's list: the answer, and all that was lent afterwards.
pub(crate) fn listed(lent: &Lent) -> (raw::Listing, Lent) {
    let mut ours = lent.clone();
    let list = &mut ours.list;
    let answer = lend(lent, &lent.live, |live| {
        lend(lent, &lent.marks, |marks| {
            raw::list(
                lent.k,
                lent.n,
                lent.h,
                &ours.points,
                live,
                &ours.order,
                &ours.normals,
                &ours.offsets,
                marks,
                list,
            )
        })
    });
    (answer, ours)
}

/// Asks that the library's list answers another call with what it answered, and with the same list.
fn listed_alike(why: &str, other: &Lent, answer: raw::Listing, ours: &Lent) {
    let (again, after) = listed(other);
    assert_eq!(again, answer, "list {why} of {ours:?}");
    kept("list", other, again.code, &other.list, &after.list);
    if answer.code == 0 {
        let v = ours.v();
        let (first, second) = (&ours.list[..v], &after.list[..v]);
        same(&format!("list {why}"), other, first, second);
    }
}

/// Makes a call of the library with a slice, right behind which other numbers stand, and asks that it leaves both as they were.
pub(crate) fn lend<T, A>(lent: &Lent, slice: &[T], call: impl FnOnce(&[T]) -> A) -> A
where
    T: Copy + Debug + From<u8> + PartialEq,
{
    let before = [slice, &lent.beyond.map(T::from)].concat();
    let places = before.clone();
    let answer = call(&places[..slice.len()]);
    same("what was lent", lent, &places, &before);
    answer
}

/// Makes a call of the library with a slice that it may write, right behind which other numbers stand, and asks that it leaves those.
pub(crate) fn lend_to_write<T, A>(
    lent: &Lent,
    slice: &mut [T],
    call: impl FnOnce(&mut [T]) -> A,
) -> A
where
    T: Copy + Debug + From<u8> + PartialEq,
{
    let beyond = lent.beyond.map(T::from);
    let mut places = [&slice[..], &beyond].concat();
    let answer = call(&mut places[..slice.len()]);
    slice.copy_from_slice(&places[..slice.len()]);
    same(
        "behind what was lent",
        lent,
        &places[slice.len()..],
        &beyond,
    );
    answer
}

/// Makes a call of the library with points and live bytes so.
pub(crate) fn lend_live<A>(lent: &Lent, call: impl FnOnce(&[i32], &[u8]) -> A) -> A {
    lend(lent, &lent.points, |points| {
        lend(lent, &lent.live, |live| call(points, live))
    })
}

/// Makes a call of the library with the three slices of the faces so.
pub(crate) fn lend_faces<A>(lent: &Lent, call: impl FnOnce(&[i32], &[i64], &[u8]) -> A) -> A {
    lend(lent, &lent.normals, |normals| {
        lend(lent, &lent.offsets, |offsets| {
            lend(lent, &lent.marks, |marks| call(normals, offsets, marks))
        })
    })
}

/// Compares screen, also with the calls that must be answered alike, and holds it to what list answers.
pub fn screen(lent: &Lent) -> raw::Screening {
    let ours = lent.clone();
    let answer = screened(&ours);
    let expected = second::screen(
        lent.k,
        lent.n,
        lent.h,
        &lent.points,
        &lent.live,
        &lent.order,
        &lent.normals,
        &lent.offsets,
        &lent.marks,
    );
    let numbers = (answer.code, answer.found, answer.number, answer.visits);
    let theirs_numbers = (
        expected.code,
        expected.found,
        expected.number,
        expected.visits,
    );
    assert_eq!(numbers, theirs_numbers, "screen of {lent:?}");
    same_lent("screen", lent, &ours, lent);
    for (why, other) in lent.alike() {
        assert_eq!(screened(&other), answer, "screen {why} of {lent:?}");
    }
    first_of_list(lent, answer);
    if answer.code == 0 {
        bounds::hold(lent, answer.visits);
    }
    answer
}

/// Calls the library's screen.
fn screened(lent: &Lent) -> raw::Screening {
    lend(lent, &lent.live, |live| {
        lend(lent, &lent.marks, |marks| {
            raw::screen(
                lent.k,
                lent.n,
                lent.h,
                &lent.points,
                live,
                &lent.order,
                &lent.normals,
                &lent.offsets,
                marks,
            )
        })
    })
}

/// Asks that screen answers by the list call with room in its buffer: the same refusal, else the first entry of its inside list and no
/// more visits, or that there is none and all the visits.
fn first_of_list(lent: &Lent, answer: raw::Screening) {
    let (listing, inside) = listed_with_room(lent);
    assert_eq!(answer.code, listing.code, "screen by list of {lent:?}");
    assert_eq!(
        (answer.found, answer.number),
        inside.first().map_or((0, 0), |number| (1, *number)),
        "screen by the inside list of {lent:?}"
    );
    let most = listing.visits;
    assert!(
        answer.visits <= most,
        "screen by the visits {most} of {lent:?}"
    );
    if answer.found == 0 {
        assert_eq!(answer.visits, most, "screen by the visits of {lent:?}");
    }
}

/// The library's list with room in its buffer: the answer, and the numbers inside.
fn listed_with_room(lent: &Lent) -> (raw::Listing, Vec<u32>) {
    let mut roomy = lent.clone();
    roomy.list = vec![0; lent.n.min(65_535)];
    let (listing, after) = listed(&roomy);
    (listing, after.list[..listing.inside as usize].to_vec())
}

/// Compares explain, also with the calls that must be answered alike, and holds it to what list answers and to the words.
pub fn explain(lent: &Lent) -> raw::Explaining {
    let ours = lent.clone();
    let answer = explained(&ours);
    let expected = second::explain(
        lent.k,
        lent.n,
        lent.h,
        lent.number,
        &lent.points,
        &lent.live,
        &lent.order,
        &lent.normals,
        &lent.offsets,
        &lent.marks,
    );
    let theirs = raw::Explaining {
        code: expected.code,
        reason: expected.reason,
        face: expected.face,
        slot: expected.slot,
        margin: expected.margin,
    };
    assert_eq!(answer, theirs, "explain of {lent:?}");
    same_lent("explain", lent, &ours, lent);
    explained_alike(lent, answer);
    explained_by_list(lent, answer);
    reasons::hold(lent, answer);
    answer
}

/// Calls the library's explain, with other numbers right behind the points, the live bytes and each slice of the faces.
fn explained(lent: &Lent) -> raw::Explaining {
    let Lent {
        k, n, h, number, ..
    } = *lent;
    let order = &lent.order;
    lend_live(lent, |points, live| {
        lend_faces(lent, |normals, offsets, marks| {
            raw::explain(
                k, n, h, number, points, live, order, normals, offsets, marks,
            )
        })
    })
}

/// Asks that the library's explain answers alike: in everything with other numbers behind the slices and with other dead coordinates, and
/// with closed faces in place of open ones in all but the margin to such a face, which is one less.
fn explained_alike(lent: &Lent, answer: raw::Explaining) {
    let behind = explained(&lent.with_other_behind());
    assert_eq!(behind, answer, "explain by what is behind of {lent:?}");
    if let Some(other) = lent.with_other_dead() {
        let again = explained(&other);
        assert_eq!(
            again, answer,
            "explain by other dead coordinates of {lent:?}"
        );
    }
    if let Some(closed) = lent.with_open_as_closed() {
        let face = usize::from(answer.face);
        let outside = answer.reason > raw::INSIDE_BY_ITSELF;
        let moved = outside && closed.marks[face] != lent.marks[face];
        let expected = raw::Explaining {
            margin: answer.margin - i64::from(moved),
            ..answer
        };
        let told = explained(&closed);
        assert_eq!(told, expected, "explain by closed faces of {lent:?}");
    }
}

/// Asks that explain answers by the list call with room in its buffer: the same refusal, or 17 where that is done and no point has the
/// number; else inside exactly where that lists the number inside.
fn explained_by_list(lent: &Lent, answer: raw::Explaining) {
    let (listing, inside) = listed_with_room(lent);
    let code = match listing.code {
        0 if !lent.is_live(lent.number) => 17,
        code => code,
    };
    assert_eq!(answer.code, code, "explain by list of {lent:?}");
    if code == 0 {
        let listed = inside.contains(&lent.number);
        let told = answer.reason <= raw::INSIDE_BY_ITSELF;
        assert_eq!(told, listed, "explain by the inside list of {lent:?}");
    }
}

/// Compares the one-point test, also with the calls that must be answered alike, and holds it to the margins of the point.
pub fn place(lent: &Lent) -> raw::Placing {
    let ours = lent.clone();
    let answer = placed(&ours);
    let expected = second::place(
        lent.k,
        lent.h,
        &lent.point,
        &lent.normals,
        &lent.offsets,
        &lent.marks,
    );
    let flags = (u32::from(answer.inside), u32::from(answer.measured));
    let numbers = (answer.code, flags, answer.face, answer.margin);
    let expected_flags = (expected.inside, expected.measured);
    let theirs_numbers = (
        expected.code,
        expected_flags,
        expected.face,
        expected.margin,
    );
    assert_eq!(numbers, theirs_numbers, "place of {lent:?}");
    same_lent("place", lent, &ours, lent);
    placed_alike(lent, answer);
    margins::hold(lent, answer);
    answer
}

/// Asks that the library's one-point test answers alike: in everything with other numbers behind the slices, and as to inside with
/// closed faces, whose margins are others, in place of open ones.
fn placed_alike(lent: &Lent, answer: raw::Placing) {
    let behind = placed(&lent.with_other_behind());
    assert_eq!(behind, answer, "place by what is behind of {lent:?}");
    if let Some(closed) = lent.with_open_as_closed().map(|other| placed(&other)) {
        let told = [closed, answer].map(|each| (each.code, each.inside));
        assert_eq!(told[0], told[1], "place by closed faces of {lent:?}");
    }
}

/// Calls the library's one-point test, with other numbers right behind each slice.
fn placed(lent: &Lent) -> raw::Placing {
    let Lent { k, h, .. } = *lent;
    lend(lent, &lent.point, |point| {
        lend_faces(lent, |normals, offsets, marks| {
            raw::place(k, h, point, normals, offsets, marks)
        })
    })
}

/// Asks that the two calls left all that was lent alike.
pub(crate) fn same_lent(call: &str, lent: &Lent, ours: &Lent, theirs: &Lent) {
    same(call, lent, &ours.points, &theirs.points);
    same(call, lent, &ours.live, &theirs.live);
    same(call, lent, &ours.order, &theirs.order);
    same(call, lent, &ours.normals, &theirs.normals);
    same(call, lent, &ours.offsets, &theirs.offsets);
    same(call, lent, &ours.list, &theirs.list);
    same(call, lent, &ours.point, &theirs.point);
}

/// Asks that a refused call left every place of its buffer, and a done one those from v on.
fn kept(call: &str, lent: &Lent, code: u32, before: &[u32], after: &[u32]) {
    let from = if code == 0 { lent.v() } else { 0 };
    same(call, lent, &after[from..], &before[from..]);
}

/// Asks that two runs of places are the same, and names the first that is not.
pub(crate) fn same<T, L>(call: &str, lent: &L, ours: &[T], theirs: &[T])
where
    T: PartialEq + Debug,
    L: Debug,
{
    assert_eq!(ours.len(), theirs.len(), "{call} of {lent:?}");
    let mut places = ours.iter().zip(theirs).enumerate();
    if let Some((place, (is, should))) = places.find(|(_, (is, should))| is != should) {
        panic!("{call} of {lent:?}: place {place} is {is:?} and should be {should:?}");
    }
}
