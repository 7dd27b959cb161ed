//! The table, in columns that stand under each other and read as Markdown too.

use crate::rows::Row;

/// The heads of the columns.
const HEADS: [&str; 13] = [
    "call",
    "points",
    "k",
    "n",
    "faces",
    "inside",
    "visits",
    "library µs",
    "against",
    "its µs",
    "ratio",
    "at most",
    "target",
];

/// A whole number with a comma before each three digits that follow others.
pub fn with_commas(number: usize) -> String {
    match number {
        0..=999 => number.to_string(),
        _ => format!("{},{:03}", with_commas(number / 1000), number % 1000),
    }
}

/// What stands in each column of a row.
fn cells(row: &Row) -> Vec<String> {
    let share = |inside: u32| format!("{:.2} %", 100.0 * f64::from(inside) / row.n as f64);
    let (faces, inside, visits) = match &row.asked {
        None => Default::default(),
        Some(asked) => (
            format!("{} {}", asked.h, asked.kind),
            share(asked.inside),
            with_commas(asked.visits as usize),
        ),
    };
    let verdict = row.reached().map(|reached| match reached {
        true => "reached",
        false => "NOT reached",
    });
    vec![
        row.call.to_string(),
        row.points.to_string(),
        row.k.to_string(),
        with_commas(row.n),
        faces,
        inside,
        visits,
        format!("{:.1}", row.micros),
        row.against.clone(),
        format!("{:.1}", row.other_micros),
        format!("{:.3}", row.ratio()),
        row.at_most
            .map_or(String::new(), |at_most| format!("{at_most:.2}")),
        verdict.unwrap_or_default().to_string(),
    ]
}

/// One line of the table, each cell as wide as its column.
fn line(cells: &[String], widths: &[usize]) -> String {
    let padded = cells
        .iter()
        .zip(widths)
        .map(|(cell, &width)| format!(" {cell:<width$} "));
    format!("|{}|\n", padded.collect::<Vec<_>>().join("|"))
}

/// The whole table.
pub fn table(rows: &[Row]) -> String {
    let mut lines = vec![HEADS.map(String::from).to_vec()];
    lines.extend(rows.iter().map(cells));
    let width = |column: usize| {
        let cells = lines.iter().map(|cells| cells[column].chars().count());
        cells.max().unwrap_or(0)
    };
    let widths: Vec<usize> = (0..HEADS.len()).map(width).collect();
    let rule: Vec<String> = widths.iter().map(|&width| "-".repeat(width)).collect();
    lines.insert(1, rule);
    lines.iter().map(|cells| line(cells, &widths)).collect()
}
