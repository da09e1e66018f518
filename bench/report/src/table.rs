//! The table, for a terminal and for the results.

use crate::summary::{Summary, BENCHES};
use torzimlak_bench::Goal;

const COLUMNS: [&str; 8] =
    ["Measure", "Proved", "Plain Rust", "memcpy", "Proved ÷ plain", "Proved ÷ memcpy", "Goal", "Runs that meet it"];

/// A number with three digits that count.
pub fn figure(x: f64) -> String {
    let places = (2.0 - x.abs().max(1e-9).log10().floor()).clamp(0.0, 4.0) as usize;
    format!("{x:.places$}")
}

/// A time in the unit that fits it.
pub fn time(ns: f64) -> String {
    match ns.abs() {
        t if t < 1e3 => format!("{} ns", figure(ns)),
        t if t < 1e6 => format!("{} µs", figure(ns / 1e3)),
        _ => format!("{} ms", figure(ns / 1e6)),
    }
}

fn goal(g: Goal) -> String {
    match g {
        Goal::None => String::new(),
        Goal::Time(t) if t < 1e6 => format!("under {} µs", t / 1e3),
        Goal::Time(t) => format!("under {} ms", t / 1e6),
        Goal::OfPlain(n) => format!("under {n:.2} × plain"),
        Goal::OfCopy(n) => format!("under {n} × memcpy"),
        Goal::OfClear(n) => format!("under {n} × memset"),
    }
}

fn row(s: &Summary) -> [String; 8] {
    let shown = |t: Option<f64>, f: fn(f64) -> String| t.map_or(String::new(), f);
    [
        s.name().to_string(),
        time(s.proved()),
        shown(s.plain(), time),
        shown(s.copy(), time),
        shown(s.by_plain().map(|r| r.median), figure),
        shown(s.by_copy().map(|r| r.median), figure),
        goal(s.goal()),
        s.met().map_or(String::new(), |(met, all)| format!("{met} of {all}")),
    ]
}

/// The title of a bench and its rows.
fn groups(all: &[Summary]) -> impl Iterator<Item = (&'static str, Vec<[String; 8]>)> + '_ {
    BENCHES.iter().map(|(bench, title)| (*title, all.iter().filter(|s| s.bench() == *bench).map(row).collect()))
}

/// The table with columns set out by blanks.
pub fn plain(all: &[Summary]) -> String {
    let mut widths = COLUMNS.map(|c| c.chars().count());
    for cells in groups(all).flat_map(|(_, rows)| rows) {
        for (width, cell) in widths.iter_mut().zip(&cells) {
            *width = (*width).max(cell.chars().count());
        }
    }
    let line = |cells: [&str; 8]| {
        let set = |(i, (cell, width)): (usize, (&str, usize))| match i {
            0 | 6 => format!("{cell:<width$}"),
            _ => format!("{cell:>width$}"),
        };
        let set: Vec<String> = cells.into_iter().zip(widths).enumerate().map(set).collect();
        format!("{}\n", set.join("  ").trim_end())
    };
    let mut text = line(COLUMNS);
    for (title, rows) in groups(all) {
        text += &format!("\n{title}\n");
        for cells in rows {
            text += &line(cells.each_ref().map(String::as_str));
        }
    }
    text
}

/// The table in Markdown.
pub fn markdown(all: &[Summary]) -> String {
    let line = |cells: &[String]| format!("| {} |\n", cells.join(" | "));
    let mut text = line(&COLUMNS.map(String::from)) + "|---|---:|---:|---:|---:|---:|---|---|\n";
    for (title, rows) in groups(all) {
        text += &format!("| **{title}** | | | | | | | |\n");
        for cells in rows {
            text += &line(&cells);
        }
    }
    text.replace("|  |", "| |").replace("|  |", "| |")
}

#[cfg(test)]
mod tests {
    use super::{figure, time};

    #[test]
    fn figures() {
        let shown = [0.0, 0.02216, 0.999, 5.0, 80.44, 231.4, 4620.0].map(figure);
        assert_eq!(shown, ["0.0000", "0.0222", "0.999", "5.00", "80.4", "231", "4620"]);
        assert_eq!([2.5, 18_040.0, 5_670_000.0, -48.0].map(time), ["2.50 ns", "18.0 µs", "5.67 ms", "-48.0 ns"]);
    }
}
