//! The lines that the benches hand to the report: bench, measure, nanoseconds of the proved call, of the plain Rust one and of memcpy, and the goal,
//! with tabs between them and `-` for what there is not.

use std::fmt;
use std::io::Write;

/// What the proved time has to stay under.
#[derive(Clone, Copy, PartialEq, Debug)]
pub enum Goal {
    None,
    /// Nanoseconds.
    Time(f64),
    /// So many times the plain Rust call's time.
    OfPlain(f64),
    /// So many times memcpy's time.
    OfCopy(f64),
    /// So many times memset's time, which such a measure has in memcpy's place.
    OfClear(f64),
}

/// One measure, in nanoseconds.
#[derive(Clone, PartialEq, Debug)]
pub struct Measure {
    pub bench: String,
    pub name: String,
    pub proved: f64,
    pub plain: Option<f64>,
    pub copy: Option<f64>,
    pub goal: Goal,
}

impl Measure {
    pub fn new(bench: &str, name: impl Into<String>, proved: f64) -> Measure {
        Measure { bench: bench.into(), name: name.into(), proved, plain: None, copy: None, goal: Goal::None }
    }

    pub fn plain(self, ns: f64) -> Measure {
        Measure { plain: Some(ns), ..self }
    }

    pub fn copy(self, ns: f64) -> Measure {
        Measure { copy: Some(ns), ..self }
    }

    pub fn goal(self, goal: Goal) -> Measure {
        Measure { goal, ..self }
    }

    /// The measure of a line.
    pub fn parse(line: &str) -> Option<Measure> {
        let [bench, name, proved, plain, copy, goal] = line.split('\t').collect::<Vec<_>>()[..] else {
            return None;
        };
        let number = |s: &str| s.parse::<f64>().ok();
        let goal = match goal.split_once(' ') {
            Some(("time", n)) => Goal::Time(number(n)?),
            Some(("plain", n)) => Goal::OfPlain(number(n)?),
            Some(("memcpy", n)) => Goal::OfCopy(number(n)?),
            Some(("memset", n)) => Goal::OfClear(number(n)?),
            _ => Goal::None,
        };
        let made = Measure::new(bench, name, number(proved)?);
        Some(Measure { plain: number(plain), copy: number(copy), goal, ..made })
    }

    /// The goal in nanoseconds.
    pub fn goal_time(&self) -> Option<f64> {
        match self.goal {
            Goal::None => None,
            Goal::Time(t) => Some(t),
            Goal::OfPlain(n) => self.plain.map(|t| n * t),
            Goal::OfCopy(n) | Goal::OfClear(n) => self.copy.map(|t| n * t),
        }
    }
}

impl fmt::Display for Measure {
    fn fmt(&self, f: &mut fmt::Formatter) -> fmt::Result {
        let shown = |t: Option<f64>| t.map_or("-".to_string(), |t| format!("{t:.3}"));
        write!(f, "{}\t{}\t{:.3}\t{}\t{}\t", self.bench, self.name, self.proved, shown(self.plain), shown(self.copy))?;
        match self.goal {
            Goal::None => write!(f, "-"),
            Goal::Time(t) => write!(f, "time {t}"),
            Goal::OfPlain(n) => write!(f, "plain {n:.3}"),
            Goal::OfCopy(n) => write!(f, "memcpy {n}"),
            Goal::OfClear(n) => write!(f, "memset {n}"),
        }
    }
}

/// The file that the measures of a bench are added to, if the variable MEASURES names one.
pub struct Measures(Option<std::fs::File>);

impl Measures {
    pub fn open() -> Measures {
        let add = |path| std::fs::OpenOptions::new().create(true).append(true).open(path).expect("a file for measures");
        Measures(std::env::var_os("MEASURES").map(add))
    }

    pub fn add(&mut self, measure: Measure) {
        if let Some(file) = &mut self.0 {
            writeln!(file, "{measure}").expect("a line of measures");
        }
    }
}

#[cfg(test)]
mod tests {
    use super::{Goal, Measure};

    #[test]
    fn lines_are_read_as_written() {
        let bare = Measure::new("checks", "check_table, one switch", 17_400.125);
        let full = bare.clone().plain(81_700.5).copy(738.25);
        for goal in [Goal::None, Goal::Time(20_000.0), Goal::OfPlain(0.625), Goal::OfCopy(2.0), Goal::OfClear(1.3)] {
            for measure in [bare.clone().goal(goal), full.clone().goal(goal)] {
                assert_eq!(Measure::parse(&measure.to_string()), Some(measure));
            }
        }
        assert_eq!(Measure::parse("checks\tcheck_table"), None);
    }
}
