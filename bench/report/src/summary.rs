//! Each measure over all runs.

use torzimlak_bench::times::median;
use torzimlak_bench::{Goal, Measure};

/// A measure with its figures of each run.
pub struct Summary(Vec<Measure>);

/// The benches in the order of the report, with their titles.
pub const BENCHES: [(&str, &str); 5] = [
    ("steps", "Step loop, a step"),
    ("checks", "Checks of a table of 1,024 entries, a call"),
    ("starts", "Starts, a call, with memset in memcpy's place"),
    ("snapshots", "Snapshots, a call"),
    ("assemble", "Assembler, a call"),
];

/// Least, median and most of a ratio over the runs.
#[derive(Clone, Copy)]
pub struct Ratio {
    pub least: f64,
    pub median: f64,
    pub most: f64,
}

fn ratio(all: &[f64]) -> Ratio {
    let fold = |f: fn(f64, f64) -> f64| all.iter().copied().reduce(f).expect("a run");
    Ratio { least: fold(f64::min), median: median(all), most: fold(f64::max) }
}

impl Summary {
    pub fn bench(&self) -> &str {
        &self.0[0].bench
    }

    pub fn name(&self) -> &str {
        &self.0[0].name
    }

    pub fn goal(&self) -> Goal {
        self.0[0].goal
    }

    /// A figure of each run, if there is one.
    fn each(&self, figure: impl Fn(&Measure) -> Option<f64>) -> Option<Vec<f64>> {
        self.0.iter().map(figure).collect()
    }

    pub fn proved(&self) -> f64 {
        median(&self.each(|m| Some(m.proved)).expect("a run"))
    }

    pub fn plain(&self) -> Option<f64> {
        self.each(|m| m.plain).map(|all| median(&all))
    }

    pub fn copy(&self) -> Option<f64> {
        self.each(|m| m.copy).map(|all| median(&all))
    }

    /// The goal's time.
    pub fn goal_time(&self) -> Option<f64> {
        self.each(Measure::goal_time).map(|all| median(&all))
    }

    /// The proved time by the plain one's of the same run.
    pub fn by_plain(&self) -> Option<Ratio> {
        self.each(|m| m.plain.map(|t| m.proved / t)).map(|all| ratio(&all))
    }

    /// The proved time by memcpy's of the same run.
    pub fn by_copy(&self) -> Option<Ratio> {
        self.each(|m| m.copy.map(|t| m.proved / t)).map(|all| ratio(&all))
    }

    /// The runs that meet the goal, and all runs.
    pub fn met(&self) -> Option<(usize, usize)> {
        let met = self.0.iter().map(|m| m.goal_time().map(|t| m.proved < t)).collect::<Option<Vec<bool>>>()?;
        Some((met.iter().filter(|m| **m).count(), met.len()))
    }
}

/// The measures of all runs, in the order of the benches and of the first run.
pub fn summaries(runs: &[Vec<Measure>]) -> Vec<Summary> {
    let first = runs.first().expect("a run");
    let named = |m: &Measure, run: &Vec<Measure>| {
        let found = run.iter().find(|x| (&x.bench, &x.name) == (&m.bench, &m.name));
        found.unwrap_or_else(|| panic!("{} is missing in a run", m.name)).clone()
    };
    let of = |bench: &'static str| first.iter().filter(move |m| m.bench == bench);
    let ordered = BENCHES.iter().flat_map(|(bench, _)| of(bench));
    ordered.map(|m| Summary(runs.iter().map(|run| named(m, run)).collect())).collect()
}
