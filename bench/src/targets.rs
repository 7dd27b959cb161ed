//! What is to be reached on a full shelf of clustered points in three dimensions.

use crate::measured::{Call, Measured, CHECK, HALF_CHECK};
use crate::rows::Row;

/// The dimension and the sizes that the targets speak of.
pub const DIMENSION: usize = 3;
pub const FULL: usize = 65_535;
pub const SMALLER: usize = 8_192;

/// What a ratio is to be at most, where there is a target for it.
fn at_most(row: &Row) -> Option<f64> {
    if row.points != "clustered" || row.k != DIMENSION || row.n != FULL {
        return None;
    }
    let eight = matches!(&row.asked, Some(asked) if asked.h == 8 && asked.kind == "slanted");
    let one_in_a_hundred = matches!(&row.asked, Some(asked) if asked.h == 8 && asked.share == 0.01);
    let emptied = matches!(&row.asked, Some(asked) if asked.inside == 0 && asked.visits >= 200);
    match (row.call, row.against.as_str()) {
        ("arrange", "nanoflann") => Some(0.5),
        ("arrange", "CGAL") => Some(0.7),
        ("arrange", "Rust builder") => Some(0.9),
        (CHECK, "arrange") => Some(0.15),
        (_, "on the tree and from zeros") => Some(1.02),
        ("walk", "walk by hand") => Some(1.2),
        ("walk", "scan in Rust" | "scan in C++") if eight => Some(0.5),
        ("list", "scan in Rust" | "scan in C++") if eight => Some(1.5),
        ("screen's walk", "walk") if emptied => Some(0.9),
        ("regions", "64 list calls") if one_in_a_hundred => Some(0.25),
        ("a region", "walk alone") if one_in_a_hundred => Some(1.05),
        ("regions", "CGAL, inside alone" | "CGAL, both lists") => Some(1.1),
        ("arrange, half dead", "arrange") => Some(0.6),
        (HALF_CHECK, CHECK) => Some(0.7),
        ("walk less root box, half dead", "walk less root box") => Some(0.75),
        _ => None,
    }
}

/// Sets the targets of these rows, adds those that join several workloads or have a fixed time to keep, and puts the rows with a target last.
pub fn with_targets(mut rows: Vec<Row>, measured: &[Measured]) -> Vec<Row> {
    for row in &mut rows {
        row.at_most = at_most(row);
    }
    rows.extend(worst_arrange(measured));
    rows.extend(growth(measured));
    rows.extend(measured.iter().filter_map(explains_way));
    rows.extend(["CGAL, inside alone", "CGAL, both lists"].map(|other| mornings(measured, other)));
    rows.sort_by_key(|row| row.at_most.is_some());
    rows
}

/// Arranging one kind of points in three dimensions, where it was measured.
fn arrange_of<'a>(measured: &'a [Measured], points: &str, n: usize) -> Option<&'a Measured> {
    let mut all = measured.iter().filter(|m| m.is_arrange());
    all.find(|m| m.points == points && m.k == DIMENSION && m.n == n)
}

/// The slowest arranging of a full shelf against the one of clustered points: at most 3.
fn worst_arrange(measured: &[Measured]) -> Option<Row> {
    let ordinary = arrange_of(measured, "clustered", FULL)?;
    let full = |m: &&Measured| m.is_arrange() && m.k == DIMENSION && m.n == FULL;
    let times = measured.iter().filter(full);
    let worst = times.max_by(|x, y| x.time("arrange").total_cmp(&y.time("arrange")))?;
    Some(Row {
        call: "worst arrange",
        points: worst.points,
        k: DIMENSION,
        n: FULL,
        asked: None,
        micros: worst.time("arrange"),
        against: "arrange, clustered".to_string(),
        other_micros: ordinary.time("arrange"),
        at_most: Some(3.0),
    })
}

/// Arranging a full shelf against what n log n makes of arranging a smaller one: at most 1.3.
fn growth(measured: &[Measured]) -> Option<Row> {
    let large = arrange_of(measured, "clustered", FULL)?;
    let small = arrange_of(measured, "clustered", SMALLER)?;
    let work = |n: usize| n as f64 * (n as f64).log2();
    Some(Row {
        call: "growth",
        points: large.points,
        k: DIMENSION,
        n: FULL,
        asked: None,
        micros: large.time("arrange"),
        against: "n log n from 8,192".to_string(),
        other_micros: small.time("arrange") * work(FULL) / work(SMALLER),
        at_most: Some(1.3),
    })
}

/// Several regions in one call against another way, on the average of all their workloads' ratios: at most 1. Its times are the mean of the
/// library's, and that divided by this average.
fn mornings(measured: &[Measured], against: &str) -> Row {
    let all = measured.iter().filter(|m| m.is_regions());
    let count = all.clone().count() as f64;
    let ratios = all.clone().map(|m| m.time("regions") / m.time(against));
    let ratio = ratios.sum::<f64>() / count;
    let micros = all.map(|m| m.time("regions")).sum::<f64>() / count;
    Row {
        call: "regions, average",
        points: "clustered",
        k: DIMENSION,
        n: FULL,
        asked: None,
        micros,
        against: against.to_string(),
        other_micros: micros / ratio,
        at_most: Some(1.0),
    }
}

/// What the explain call takes beyond the check, on the average over its numbers: at most 20 µs.
fn explains_way(measured: &Measured) -> Option<Row> {
    matches!(measured.call, Call::Explain).then(|| Row {
        call: "explain's way",
        points: measured.points,
        k: measured.k,
        n: measured.n,
        asked: measured.asked,
        micros: measured.time("explain's way"),
        against: "20 µs".to_string(),
        other_micros: 20.0,
        at_most: Some(1.0),
    })
}
