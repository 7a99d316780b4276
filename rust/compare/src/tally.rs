//! How many inputs of each kind were tried, and how many differed.

use std::fmt::{self, Display, Formatter};

/// The counts of one comparison.
#[derive(Clone, Debug, Default)]
pub struct Tally {
    rows: Vec<Row>,
    first_difference: Option<String>,
}

#[derive(Clone, Debug)]
struct Row {
    kind: &'static str,
    tried: u64,
    differed: u64,
}

impl Tally {
    /// Counts one input; `difference` says how the sides differed.
    pub fn count(&mut self, kind: &'static str, difference: Option<String>) {
        self.count_many(kind, 1, difference);
    }

    /// Counts so many inputs, of which the last may have differed.
    pub fn count_many(&mut self, kind: &'static str, tried: u64, difference: Option<String>) {
        let row = self.row(kind);
        row.tried += tried;
        row.differed += u64::from(difference.is_some());
        self.first_difference = self.first_difference.take().or(difference);
    }

    /// How many inputs of this kind were tried.
    pub fn tried(&self, kind: &str) -> u64 {
        let of_kind = self.rows.iter().filter(|row| row.kind == kind);
        of_kind.map(|row| row.tried).sum()
    }

    /// How many inputs were tried.
    pub fn total(&self) -> u64 {
        self.rows.iter().map(|row| row.tried).sum()
    }

    /// Prints the counts, and fails where an input differed or fewer than
    /// `least` were tried.
    pub fn close(&self, title: &str, least: u64) {
        println!("{title}\n{self}");
        if let Some(difference) = &self.first_difference {
            panic!("{title}: the first difference: {difference}");
        }
        assert!(self.total() >= least, "{title}: too few inputs");
    }

    fn row(&mut self, kind: &'static str) -> &mut Row {
        let known = self.rows.iter().position(|row| row.kind == kind);
        let at = known.unwrap_or(self.rows.len());
        if known.is_none() {
            self.rows.push(Row {
                kind,
                tried: 0,
                differed: 0,
            });
        }
        &mut self.rows[at]
    }
}

impl Display for Tally {
    fn fmt(&self, to: &mut Formatter<'_>) -> fmt::Result {
        let line = |to: &mut Formatter<'_>, kind: &str, tried: u64, differed: u64| {
            writeln!(to, "  {kind:<40} {tried:>10} tried {differed:>4} differed")
        };
        for row in &self.rows {
            line(to, row.kind, row.tried, row.differed)?;
        }
        let differed = self.rows.iter().map(|row| row.differed).sum();
        line(to, "all", self.total(), differed)
    }
}
