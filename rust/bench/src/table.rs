use crate::timing::Times;
use std::fmt;

/// What was timed, with the time of each side.
pub struct Table {
    /// What the other side is.
    other: &'static str,
    rows: Vec<(String, Times)>,
}

impl Table {
    pub fn beside(other: &'static str) -> Table {
        let rows = Vec::new();
        Table { other, rows }
    }

    pub fn add(&mut self, what: impl Into<String>, times: Times) {
        self.rows.push((what.into(), times));
    }
}

impl fmt::Display for Table {
    fn fmt(&self, f: &mut fmt::Formatter) -> fmt::Result {
        writeln!(f, "| what | ours, ns | {}, ns | ratio |", self.other)?;
        writeln!(f, "|---|---:|---:|---:|")?;
        for (what, Times { ours, other }) in &self.rows {
            let ratio = ours / other;
            writeln!(f, "| {what} | {ours:.1} | {other:.1} | {ratio:.2} |")?;
        }
        Ok(())
    }
}
