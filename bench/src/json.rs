//! The table as JSON.

use crate::rows::Row;

/// A text in quotes.
fn quoted(text: &str) -> String {
    let mut out = String::from("\"");
    for letter in text.chars() {
        match letter {
            '"' | '\\' => out.extend(['\\', letter]),
            letter if letter < ' ' => out.push(' '),
            letter => out.push(letter),
        }
    }
    out + "\""
}

/// An object of these names and values, the values written already.
fn object(fields: &[(&str, String)]) -> String {
    let field = |(name, value): &(&str, String)| format!("{}: {value}", quoted(name));
    let fields: Vec<String> = fields.iter().map(field).collect();
    format!("{{{}}}", fields.join(", "))
}

/// One row.
fn row(row: &Row) -> String {
    let mut fields = vec![
        ("call", quoted(row.call)),
        ("points", quoted(row.points)),
        ("k", row.k.to_string()),
        ("n", row.n.to_string()),
    ];
    if let Some(asked) = &row.asked {
        fields.push(("faces", asked.h.to_string()));
        fields.push(("region", quoted(asked.kind)));
        fields.push(("inside", asked.inside.to_string()));
        fields.push(("visits", asked.visits.to_string()));
    }
    fields.push(("library_us", format!("{:.3}", row.micros)));
    fields.push(("against", quoted(&row.against)));
    fields.push(("against_us", format!("{:.3}", row.other_micros)));
    fields.push(("ratio", format!("{:.4}", row.ratio())));
    if let (Some(at_most), Some(reached)) = (row.at_most, row.reached()) {
        fields.push(("at_most", at_most.to_string()));
        fields.push(("reached", reached.to_string()));
    }
    object(&fields)
}

/// What is known of the run, and every row, each on a line.
pub fn json(about: &[(String, String)], rows: &[Row]) -> String {
    let about: Vec<(&str, String)> = about
        .iter()
        .map(|(name, value)| (name.as_str(), quoted(value)))
        .collect();
    let rows: Vec<String> = rows.iter().map(row).collect();
    let (about, rows) = (object(&about), rows.join(",\n    "));
    format!("{{\n  \"about\": {about},\n  \"rows\": [\n    {rows}\n  ]\n}}\n")
}
