//! The tables, in Markdown.
use crate::timing::{median, quantile};

/// One line of a table: the times of two sides on the same inputs.
struct Line {
    name: String,
    ours: f64,
    other: f64,
    quartiles: (f64, f64),
    rounds: usize,
    target: Option<f64>,
}

/// A table that compares the library with one other side.
pub struct Table {
    title: String,
    keys: &'static str,
    unit: &'static str,
    other: &'static str,
    lines: Vec<Line>,
}

impl Line {
    /// The ratio of the medians.
    fn ratio(&self) -> f64 {
        self.ours / self.other
    }

    /// The target and whether it is reached; a line without a target is only reported.
    fn verdict(&self) -> String {
        match self.target {
            None => "– | reported".to_string(),
            Some(most) if self.ratio() <= most => format!("{most} | reached"),
            Some(most) => format!("{most} | **not reached**"),
        }
    }
}

impl Table {
    /// An empty table; `keys` has the heads of the first columns.
    pub fn new(
        title: impl Into<String>,
        keys: &'static str,
        unit: &'static str,
        other: &'static str,
    ) -> Table {
        Table {
            title: title.into(),
            keys,
            unit,
            other,
            lines: Vec::new(),
        }
    }

    /// Adds a line from the times of both sides, round by round.
    pub fn add(
        &mut self,
        name: impl Into<String>,
        ours: &[f64],
        other: &[f64],
        target: Option<f64>,
    ) {
        let ratios: Vec<f64> = ours.iter().zip(other).map(|(a, b)| a / b).collect();
        let quartiles = (quantile(&ratios, 0.25), quantile(&ratios, 0.75));
        self.lines.push(Line {
            name: name.into(),
            ours: median(ours),
            other: median(other),
            quartiles,
            rounds: ratios.len(),
            target,
        });
    }

    /// The number of rounds that the medians are of, or the fewest and the most if the lines
    /// differ.
    fn rounds(&self) -> String {
        let rounds = || self.lines.iter().map(|l| l.rounds);
        match (rounds().min().unwrap_or(0), rounds().max().unwrap_or(0)) {
            (fewest, most) if fewest == most => format!("{most}"),
            (fewest, most) => format!("{fewest} to {most}"),
        }
    }

    /// Prints the table.
    pub fn print(&self) {
        println!(
            "\n### {}, medians of {} rounds\n",
            self.title,
            self.rounds()
        );
        println!(
            "| {} | library, {} | {}, {} | ratio | quartiles of the ratio | target | |",
            self.keys, self.unit, self.other, self.unit
        );
        println!(
            "|{}---:|---:|---:|---|---:|---|",
            "---|".repeat(self.keys.split('|').count())
        );
        for l in &self.lines {
            let (low, high) = l.quartiles;
            println!(
                "| {} | {} | {} | {:.3} | {low:.3} to {high:.3} | {} |",
                l.name,
                short(l.ours),
                short(l.other),
                l.ratio(),
                l.verdict()
            );
        }
    }

    /// The number of lines that have a target, and a sentence for each target that is not reached.
    pub fn verdicts(&self) -> (usize, Vec<String>) {
        let asked: Vec<_> = self
            .lines
            .iter()
            .filter_map(|l| l.target.map(|most| (l, most)))
            .collect();
        let missed = asked.iter().filter(|(l, most)| l.ratio() > *most);
        let say = |(l, most): &(&Line, f64)| {
            format!(
                "{}, {}: {:.3}, target {most}",
                self.title,
                l.name.replace(" |", ","),
                l.ratio()
            )
        };
        (asked.len(), missed.map(say).collect())
    }
}

/// A number with about three or four digits.
pub fn short(x: f64) -> String {
    match x {
        x if x >= 100.0 => format!("{x:.0}"),
        x if x >= 10.0 => format!("{x:.1}"),
        x => format!("{x:.3}"),
    }
}
