//! One table of all rows.

use std::fmt::{self, Display, Formatter};

/// What is measured of a row.
#[derive(Clone, Copy)]
pub enum Unit {
    /// Nanoseconds: less is faster.
    Nanoseconds,
    /// Megabytes a second: more is faster.
    Megabytes,
}

impl Unit {
    const fn name(self) -> &'static str {
        match self {
            Self::Nanoseconds => "ns",
            Self::Megabytes => "MB/s",
        }
    }

    /// How many times as fast ours is.
    fn ratio(self, ours: f64, other: f64) -> f64 {
        match self {
            Self::Nanoseconds => other / ours,
            Self::Megabytes => ours / other,
        }
    }
}

/// The same work by the proved library, by Rust written for speed and, where
/// it is timed too, by the second program.
pub struct Row {
    /// What is done.
    pub work: String,
    /// What the numbers are.
    pub unit: Unit,
    /// The proved library.
    pub ours: f64,
    /// Rust written for speed; the fastest, where there are several.
    pub rust: f64,
    /// The second program.
    pub second: Option<f64>,
}

/// The line above the rows.
pub fn print_head() {
    println!(
        "{:<40} {:>5} {:>8} {:>8} {:>8}   {:>10} {:>12}",
        "", "", "ours", "Rust", "second", "ours: Rust", "ours: second"
    );
}

impl Row {
    /// Prints the row.
    pub fn print(&self) {
        println!("{self}");
    }
}

impl Display for Row {
    fn fmt(&self, to: &mut Formatter<'_>) -> fmt::Result {
        let Self {
            work, unit, ours, ..
        } = self;
        let dash = || "-".to_owned();
        let second = self.second.map_or_else(dash, |time| format!("{time:.1}"));
        let to_second = self
            .second
            .map_or_else(dash, |time| format!("{:.1}", unit.ratio(*ours, time)));
        write!(
            to,
            "{work:<40} {:>5} {ours:>8.1} {:>8.1} {second:>8}   {:>10.2} {to_second:>12}",
            unit.name(),
            self.rust,
            unit.ratio(*ours, self.rust)
        )
    }
}
