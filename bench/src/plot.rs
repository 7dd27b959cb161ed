//! A plot of time against n for each call, as SVG: both axes double by equal steps, so that steady growth is a straight line.

use crate::measured::{Measured, CHECK};
use crate::table::with_commas;
use crate::targets::DIMENSION;
use std::fmt::Write;

/// A panel: its title, and the contenders that it draws, the library first.
struct Panel {
    title: &'static str,
    of_region: bool,
    names: &'static [&'static str],
}

/// One panel for each call, and one for the walk alone.
const PANELS: [Panel; 4] = [
    Panel {
        title: "arrange",
        of_region: false,
        names: &["arrange", "nanoflann", "CGAL", "Rust builder"],
    },
    Panel {
        title: CHECK,
        of_region: false,
        names: &[CHECK, "arrange"],
    },
    Panel {
        title: "list, 8 slanted faces, 1 %",
        of_region: true,
        names: &["list", CHECK, "scan in Rust", "scan in C++", "CGAL"],
    },
    Panel {
        title: "walk, 8 slanted faces, 1 %",
        of_region: true,
        names: &["walk", "walk by hand", "scan in Rust", "scan in C++"],
    },
];

/// The colours of the lines, in turn.
const COLOURS: [&str; 5] = ["#c0392b", "#2471a3", "#1e8449", "#b9770e", "#7d3c98"];

/// The width and height of a panel, and the room around its axes.
const WIDTH: f64 = 460.0;
const HEIGHT: f64 = 340.0;
const ROOM: f64 = 60.0;

/// What a plot draws of a workload: clustered points in three dimensions, and of regions the one of the plan's sizes.
fn drawn(measured: &Measured, of_region: bool) -> bool {
    let region = match &measured.asked {
        None => !of_region,
        Some(asked) => of_region && asked.h == 8 && asked.kind == "slanted" && asked.share == 0.01,
    };
    let call = measured.is_arrange() || measured.is_list();
    region && call && measured.points == "clustered" && measured.k == DIMENSION
}

/// The ends of an axis, and where it lies.
struct Axis {
    least: f64,
    greatest: f64,
    from: f64,
    to: f64,
}

impl Axis {
    /// An axis over these values, from one place of the panel to another.
    fn over(values: impl Iterator<Item = f64> + Clone, from: f64, to: f64) -> Axis {
        let least = values.clone().fold(f64::MAX, f64::min);
        let greatest = values.fold(least, f64::max).max(least * 2.0);
        Axis {
            least,
            greatest,
            from,
            to,
        }
    }

    /// Where a value lies.
    fn at(&self, value: f64) -> f64 {
        let part = (value / self.least).log2() / (self.greatest / self.least).log2();
        self.from + part * (self.to - self.from)
    }
}

/// Draws one panel with its left upper corner at the origin.
fn draw(panel: &Panel, measured: &[Measured]) -> String {
    let of_panel = measured.iter().filter(|m| drawn(m, panel.of_region));
    let shown: Vec<&Measured> = of_panel.collect();
    let sizes = shown.iter().map(|m| m.n as f64);
    let names = panel.names.iter();
    let times = names.flat_map(|name| shown.iter().map(move |m| m.time(name).max(0.1)));
    let across = Axis::over(sizes, ROOM, WIDTH - 20.0);
    let up = Axis::over(times, HEIGHT - ROOM, 40.0);
    let mut out = format!(
        "<text x='{ROOM}' y='24' class='title'>{}</text>\n",
        panel.title
    );
    out += &draw_axes(&shown, &across, &up);
    for (turn, name) in panel.names.iter().enumerate() {
        let place = |m: &&Measured| (across.at(m.n as f64), up.at(m.time(name).max(0.1)));
        let mut places: Vec<(f64, f64)> = shown.iter().map(place).collect();
        places.sort_by(|p, q| p.0.total_cmp(&q.0));
        let label = match turn {
            0 => format!("{name} (the library)"),
            _ => name.to_string(),
        };
        out += &draw_line(&label, turn, &places);
    }
    out
}

/// Draws the axes: a mark for each size, and one for each tenfold time.
fn draw_axes(shown: &[&Measured], across: &Axis, up: &Axis) -> String {
    let (left, bottom, right) = (across.from, up.from, across.to);
    let mut out = String::new();
    for m in shown {
        let (x, label) = (across.at(m.n as f64), with_commas(m.n));
        let y = bottom + 16.0;
        let _ = writeln!(out, "<path d='M{x:.1} {bottom} V{}'/>", up.to);
        let _ = writeln!(out, "<text x='{x:.1}' y='{y}' class='size'>{label}</text>");
    }
    for power in -1..8 {
        let time = 10f64.powi(power);
        if time < up.least * 0.99 || time > up.greatest * 1.01 {
            continue;
        }
        let (x, y) = (left - 6.0, up.at(time));
        let _ = writeln!(out, "<path d='M{left} {y:.1} H{right}'/>");
        let _ = writeln!(
            out,
            "<text x='{x}' y='{:.1}' class='time'>{time} µs</text>",
            y + 4.0
        );
    }
    out
}

/// Draws the line of one contender, and its name in the panel's left upper part.
fn draw_line(name: &str, turn: usize, places: &[(f64, f64)]) -> String {
    let colour = COLOURS[turn % COLOURS.len()];
    let wide = if turn == 0 { 3 } else { 1 };
    let points: Vec<String> = places
        .iter()
        .map(|(x, y)| format!("{x:.1},{y:.1}"))
        .collect();
    let (points, y) = (points.join(" "), 56 + 16 * turn);
    let stroke = format!("stroke='{colour}' stroke-width='{wide}'");
    format!(
        "<polyline points='{points}' fill='none' {stroke}/>\n\
         <text x='{}' y='{y}' fill='{colour}'>{name}</text>\n",
        ROOM + 8.0
    )
}

/// The whole plot: the panels two by two.
pub fn plot(measured: &[Measured]) -> String {
    let (width, height) = (2.0 * WIDTH, 2.0 * HEIGHT);
    let mut out = format!(
        "<svg xmlns='http://www.w3.org/2000/svg' width='{width}' height='{height}' font-family='sans-serif' font-size='12'>\n\
         <style>path {{ stroke: #ddd }} .title {{ font-size: 15px }} .size {{ font-size: 9px; text-anchor: middle }}\n\
         .time {{ font-size: 9px; text-anchor: end }}</style>\n\
         <rect width='{width}' height='{height}' fill='white'/>\n"
    );
    for (turn, panel) in PANELS.iter().enumerate() {
        let (x, y) = (WIDTH * (turn % 2) as f64, HEIGHT * (turn / 2) as f64);
        let _ = write!(
            out,
            "<g transform='translate({x} {y})'>\n{}</g>\n",
            draw(panel, measured)
        );
    }
    out + "</svg>\n"
}
