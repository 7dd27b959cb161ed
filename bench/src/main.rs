//! Measures the library beside other ways to do the same, and prints one table of ratios.

mod against_pivots;
mod against_select;
mod builder;
mod builds;
mod changes;
mod clock;
mod colours;
mod cpp;
mod explains;
mod halves;
mod hard;
mod json;
mod library;
mod lists;
mod measured;
mod mornings;
mod numbers;
mod plan;
mod plot;
mod region;
mod rows;
mod scan;
mod screens;
mod stock;
mod table;
mod targets;
mod walk;
mod wrong_orders;

use measured::Measured;
use plan::Plan;
use std::path::PathBuf;
use std::process::exit;

/// What is asked on the command line.
struct Options {
    plan: Plan,
    out: PathBuf,
    about: Vec<(String, String)>,
}

/// Reads the command line, or stops with what it takes.
fn options() -> Options {
    let mut options = Options {
        plan: Plan {
            seed: 20_160_229,
            rounds: 0,
            quick: false,
        },
        out: PathBuf::from("."),
        about: Vec::new(),
    };
    let mut words = std::env::args().skip(1);
    while let Some(word) = words.next() {
        if word == "--quick" {
            options.plan.quick = true;
            continue;
        }
        let value = words.next().unwrap_or_else(|| usage());
        let number = || value.parse::<u64>().unwrap_or_else(|_| usage());
        match word.as_str() {
            "--rounds" => options.plan.rounds = number() as usize,
            "--seed" => options.plan.seed = number(),
            "--out" => options.out = PathBuf::from(value),
            "--about" => options.about.push(about(&value)),
            _ => usage(),
        }
    }
    if options.plan.rounds == 0 {
        options.plan.rounds = if options.plan.quick { 3 } else { 12 };
    }
    options
}

/// Says what the command line takes, and stops.
fn usage() -> ! {
    eprintln!("bench [--quick] [--rounds N] [--seed N] [--out FOLDER] [--about NAME=VALUE]..");
    exit(2)
}

/// A name and a value, taken apart at the first equals sign.
fn about(text: &str) -> (String, String) {
    let (name, value) = text.split_once('=').unwrap_or_else(|| usage());
    (name.to_string(), value.to_string())
}

/// Writes a file in the folder of the results, or stops.
fn write(folder: &std::path::Path, name: &str, text: &str) {
    let path = folder.join(name);
    if let Err(error) = std::fs::write(&path, text) {
        eprintln!("{}: {error}", path.display());
        exit(1)
    }
}

/// Measures in a thread with room for the deepest contender: CGAL's tree of equal points is as deep as it has points.
fn measure(plan: Plan) -> Vec<Measured> {
    let room = std::thread::Builder::new().stack_size(1 << 30);
    let thread = room.spawn(move || plan.measure()).expect("a thread");
    thread.join().unwrap_or_else(|_| exit(1))
}

/// Measures, writes the table, the JSON and the plot, and prints the table last.
fn main() {
    let options = options();
    let mut about = options.about;
    about.push(("seed".to_string(), options.plan.seed.to_string()));
    about.push(("rounds".to_string(), options.plan.rounds.to_string()));
    let measured = measure(options.plan);
    let rows = measured.iter().flat_map(rows::rows).collect();
    let rows = targets::with_targets(rows, &measured);
    let facts = about
        .iter()
        .map(|(name, value)| format!("{name}: {value}\n"));
    let text = facts.collect::<String>() + "\n" + &table::table(&rows);
    write(&options.out, "table.md", &text);
    write(&options.out, "table.json", &json::json(&about, &rows));
    write(&options.out, "plot.svg", &plot::plot(&measured));
    print!("{text}");
}
