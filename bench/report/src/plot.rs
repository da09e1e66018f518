//! The plot: a bar for each ratio, from 1 to the left where the proved call takes less time, to the right where it takes more.

use crate::summary::{Ratio, Summary, BENCHES};
use crate::table::{figure, time};
use std::fmt::Write;

const WIDTH: f64 = 1000.0;
/// Where the bars may lie, between the names and the times.
const LEFT: f64 = 372.0;
const RIGHT: f64 = 880.0;
const TOP: f64 = 118.0;
const BAR: f64 = 11.0;
const GAP: f64 = 9.0;
const TITLE: f64 = 34.0;

const STYLE: &str = "
  text { font-family: system-ui, -apple-system, 'Segoe UI', 'DejaVu Sans', sans-serif; font-size: 12px; fill: #1f2328 }
  .back { fill: #ffffff }
  .title { font-size: 18px; font-weight: 600 }
  .group { font-size: 13px; font-weight: 600 }
  .soft { fill: #59636e }
  .small { font-size: 11px }
  .plain { fill: #2f6fd0 }
  .copy { fill: #d9822b }
  .grid { stroke: #d8dee4; stroke-width: 1 }
  .one { stroke: #59636e; stroke-width: 1.5 }
  .span { stroke: #1f2328; stroke-width: 1 }
  .goal { stroke: #c2255c; stroke-width: 3 }
  @media (prefers-color-scheme: dark) {
    text { fill: #e6edf3 }
    .back { fill: #0d1117 }
    .soft { fill: #9198a1 }
    .plain { fill: #5b9bf0 }
    .copy { fill: #f0a04b }
    .grid { stroke: #2b323a }
    .one { stroke: #9198a1 }
    .span { stroke: #e6edf3 }
    .goal { stroke: #ff7eb6 }
  }
";

/// A bar: its class, its ratio, and the goal's ratio.
struct Bar {
    class: &'static str,
    ratio: Ratio,
    goal: Option<f64>,
}

fn bars(s: &Summary) -> Vec<Bar> {
    let bar = |class, ratio: Option<Ratio>, base: Option<f64>| {
        Some(Bar { class, ratio: ratio?, goal: s.goal_time().zip(base).map(|(t, base)| t / base) })
    };
    let both = [bar("plain", s.by_plain(), s.plain()), bar("copy", s.by_copy(), s.copy())];
    both.into_iter().flatten().collect()
}

/// The axis: the powers of ten between which all ratios lie; a goal past its end is left out.
struct Axis {
    low: i32,
    high: i32,
}

impl Axis {
    fn new(all: &[Summary]) -> Axis {
        let ratios: Vec<Bar> = all.iter().flat_map(bars).collect();
        let least = ratios.iter().map(|b| b.ratio.least).filter(|r| *r > 0.0).fold(1.0, f64::min);
        let most = ratios.iter().map(|b| b.ratio.most).fold(1.0, f64::max);
        Axis { low: least.log10().floor() as i32, high: most.log10().ceil() as i32 }
    }

    /// Where a ratio lies; a difference of times that is not above 0 lies at the axis's end.
    fn x(&self, ratio: f64) -> f64 {
        let ratio = ratio.max(10f64.powi(self.low));
        let share = (ratio.log10() - self.low as f64) / (self.high - self.low) as f64;
        LEFT + share * (RIGHT - LEFT)
    }
}

/// The plot being drawn.
struct Plot {
    axis: Axis,
    text: String,
}

impl Plot {
    fn put(&mut self, x: f64, y: f64, class: &str, anchor: &str, words: &str) {
        let words = words.replace('&', "&amp;").replace('<', "&lt;");
        let _ =
            writeln!(self.text, r#"<text x="{x:.1}" y="{y:.1}" class="{class}" text-anchor="{anchor}">{words}</text>"#);
    }

    fn rect(&mut self, x: f64, y: f64, width: f64, height: f64, class: &str) {
        let _ = writeln!(
            self.text,
            r#"<rect x="{x:.1}" y="{y:.1}" width="{width:.1}" height="{height:.1}" class="{class}"/>"#
        );
    }

    fn line(&mut self, from: (f64, f64), to: (f64, f64), class: &str) {
        let ((a, b), (c, d)) = (from, to);
        let _ = writeln!(self.text, r#"<line x1="{a:.1}" y1="{b:.1}" x2="{c:.1}" y2="{d:.1}" class="{class}"/>"#);
    }

    fn legend(&mut self) {
        let y = 82.0;
        let mut x = 24.0;
        for (class, words, width) in
            [("plain", "beside plain Rust", 148.0), ("copy", "beside memcpy (starts: memset)", 250.0)]
        {
            self.rect(x, y - 10.0, 14.0, BAR, class);
            self.put(x + 20.0, y, "soft", "start", words);
            x += width;
        }
        self.line((x, y - 12.0), (x, y + 3.0), "goal");
        self.put(x + 8.0, y, "soft", "start", "goal: the bar ends left of it");
        x += 200.0;
        self.line((x, y - 4.5), (x + 18.0, y - 4.5), "span");
        self.put(x + 24.0, y, "soft", "start", "least to most of the runs (the bar: their median)");
    }

    fn grid(&mut self, bottom: f64) {
        for power in self.axis.low..=self.axis.high {
            let x = self.axis.x(10f64.powi(power));
            let class = if power == 0 { "one" } else { "grid" };
            self.line((x, TOP), (x, bottom), class);
            let words = format!("{} ×", 10f64.powi(power));
            self.put(x, TOP - 6.0, "soft small", "middle", &words);
            self.put(x, bottom + 16.0, "soft small", "middle", &words);
        }
    }

    /// A bar with the span of its runs, the goal, and its number past its end.
    fn bar(&mut self, y: f64, bar: &Bar) {
        let (one, end) = (self.axis.x(1.0), self.axis.x(bar.ratio.median));
        let (least, most) = (self.axis.x(bar.ratio.least), self.axis.x(bar.ratio.most));
        self.rect(one.min(end), y, (end - one).abs(), BAR, bar.class);
        self.line((least, y + BAR / 2.0), (most, y + BAR / 2.0), "span");
        let words = figure(bar.ratio.median);
        let room = 7.0 * words.chars().count() as f64 + 10.0;
        let goal = bar.goal.map(|g| self.axis.x(g)).filter(|x| *x < RIGHT);
        if let Some(x) = goal {
            self.line((x, y - 2.0), (x, y + BAR + 2.0), "goal");
        }
        let taken = |from: f64, to: f64| goal.filter(|x| (from - 3.0..to + 3.0).contains(x));
        if end < one {
            let from = least.min(end);
            let x = taken(from - room, from).unwrap_or(from);
            self.put(x - 5.0, y + BAR - 1.5, "small", "end", &words);
        } else {
            let from = most.max(end);
            let x = taken(from, from + room).unwrap_or(from);
            self.put(x + 5.0, y + BAR - 1.5, "small", "start", &words);
        }
    }

    /// A measure: its name, its bars, its time.
    fn measure(&mut self, y: f64, s: &Summary, bars: &[Bar]) {
        let middle = y + BAR * bars.len() as f64 / 2.0 + 4.0;
        self.put(36.0, middle, "", "start", s.name());
        self.put(WIDTH - 24.0, middle, "", "end", &time(s.proved()));
        for (i, bar) in bars.iter().enumerate() {
            self.bar(y + BAR * i as f64, bar);
        }
    }
}

/// The plot as SVG.
pub fn svg(all: &[Summary]) -> String {
    let height = |s: &Summary| BAR * bars(s).len() as f64 + GAP;
    let bottom = TOP + all.iter().map(height).sum::<f64>() + TITLE * BENCHES.len() as f64;
    let mut plot = Plot { axis: Axis::new(all), text: String::new() };
    plot.rect(0.0, 0.0, WIDTH, bottom + 36.0, "back");
    plot.put(24.0, 34.0, "title", "start", "The proved library beside plain Rust and memcpy");
    let words = "Time of the proved call as a multiple of the baseline's in the same run, on a logarithmic axis. \
                 Left of 1 ×: the proved call is faster.";
    plot.put(24.0, 57.0, "soft", "start", words);
    plot.legend();
    plot.grid(bottom);
    plot.put(WIDTH - 24.0, TOP - 6.0, "soft small", "end", "proved");
    let mut y = TOP;
    for (bench, title) in BENCHES {
        plot.put(24.0, y + TITLE - 11.0, "group", "start", title);
        y += TITLE;
        for s in all.iter().filter(|s| s.bench() == bench) {
            plot.measure(y, s, &bars(s));
            y += height(s);
        }
    }
    let size = format!(r#"viewBox="0 0 {WIDTH} {0:.0}" width="{WIDTH}" height="{0:.0}""#, bottom + 36.0);
    let title = "Benchmarks of the proved library beside plain Rust and memcpy";
    format!(
        "<svg xmlns=\"http://www.w3.org/2000/svg\" {size} role=\"img\">\n<title>{title}</title>\n<style>{STYLE}</style>\n{}</svg>\n",
        plot.text
    )
}
