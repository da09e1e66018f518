//! One table and one plot of what the benches measured: `torzimlak-report PLOT RESULTS HEADING MEASURES..` reads the measures of each run, prints the
//! table, writes the plot, and puts the heading and the table between the marks of the results. `torzimlak-report section NAME RESULTS TEXT` puts a
//! text between the marks of that name.

mod plot;
mod summary;
mod table;

use std::fs::{read_to_string, write};
use summary::summaries;
use torzimlak_bench::Measure;

/// The measures of one run.
fn measures(path: &str) -> Vec<Measure> {
    let text = read_to_string(path).unwrap_or_else(|e| panic!("{path}: {e}"));
    text.lines().map(|l| Measure::parse(l).unwrap_or_else(|| panic!("{path}: {l}"))).collect()
}

/// The text with what stands between the marks of a command replaced.
fn replaced(text: &str, command: &str, made: &str) -> Option<String> {
    let mark = |which: &str| format!("<!-- made by {command}: {which} -->\n");
    let (begin, end) = (mark("begin"), mark("end"));
    let (above, rest) = text.split_once(&begin)?;
    let (_, below) = rest.split_once(&end)?;
    Some(format!("{above}{begin}{made}{end}{below}"))
}

/// Renews what stands between the marks of a command in a file.
fn renew(path: &str, command: &str, made: &str) {
    let text = read_to_string(path).unwrap_or_else(|e| panic!("{path}: {e}"));
    let text = replaced(&text, command, made).unwrap_or_else(|| panic!("{path}: no marks of {command}"));
    write(path, text).unwrap_or_else(|e| panic!("{path}: {e}"));
}

/// The plot, and the table of all measures.
fn report(plot_path: &str, results_path: &str, heading: &str, runs: &[&str]) {
    let runs: Vec<Vec<Measure>> = runs.iter().map(|path| measures(path)).collect();
    let all = summaries(&runs);
    print!("{heading}\n\n{}", table::plain(&all));
    write(plot_path, plot::svg(&all)).expect("the plot");
    renew(results_path, "bench/run", &format!("{heading}\n\n{}", table::markdown(&all)));
}

fn main() {
    let args: Vec<String> = std::env::args().skip(1).collect();
    let words: Vec<&str> = args.iter().map(String::as_str).collect();
    match words[..] {
        ["section", name, results_path, text_path] => {
            let made = read_to_string(text_path).unwrap_or_else(|e| panic!("{text_path}: {e}"));
            renew(results_path, &format!("bench/run {name}"), &made);
        }
        [plot_path, results_path, heading, ref runs @ ..] => report(plot_path, results_path, heading, runs),
        _ => panic!("torzimlak-report PLOT RESULTS HEADING MEASURES.. or torzimlak-report section NAME RESULTS TEXT"),
    }
}

#[cfg(test)]
mod tests {
    use super::replaced;

    #[test]
    fn marks_of_a_command_are_its_own() {
        let text = "a\n<!-- made by x: begin -->\nb\n<!-- made by x: end -->\n<!-- made by x y: begin -->\n<!-- made by x y: end -->\nc\n";
        let due = "a\n<!-- made by x: begin -->\nb\n<!-- made by x: end -->\n<!-- made by x y: begin -->\nnew\n<!-- made by x y: end -->\nc\n";
        assert_eq!(replaced(text, "x y", "new\n").as_deref(), Some(due));
        assert_eq!(replaced(text, "z", "new\n"), None);
    }
}
