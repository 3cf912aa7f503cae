//! The run report of a log (M-105): figures over its records and what each was answered.

use crate::event::Outcome;
use crate::log::Record;
use crate::refusal::Refusal;
use crate::replay::{evs_lent, program_memory, Replay};
use crate::sampling::Sampling;
use std::fmt;

/// Room for every number of a refusal.
const NUMBERS: usize = Refusal::TooLong as usize + 1;

/// The figures, over all flows. Its text has a line for each of them.
#[derive(Clone, Debug, Default, PartialEq, Eq)]
pub struct Report {
    /// Records accepted, the settings among them.
    pub accepted: u64,
    /// Records refused, by number. There is no number 0.
    pub refused: [u64; NUMBERS],
    pub taken: u64,
    pub cut: u64,
    pub gone: u64,
    pub ambiguous: u64,
    pub not_positive: u64,
    /// 0 where there is no sample.
    pub least: u64,
    /// 0 where there is no sample.
    pub greatest: u64,
    /// Samples by the highest bit that is set in them.
    pub buckets: [u64; 32],
    /// Bytes of accepted new packets.
    pub new_bytes: u64,
    /// Bytes of accepted resends.
    pub again_bytes: u64,
}

/// The figures over a log, with the program's flows and as many EV times as it lends. Replay stops
/// where the printed lines stop.
pub fn report(log: &[u8]) -> Report {
    let mut report = Report::default();
    let mut memory = program_memory(evs_lent(log));
    let mut replay = Replay::new(log, memory.lend());
    loop {
        match replay.step_with_record() {
            Ok(None) => return report,
            Ok(Some((record, outcome))) => report.count(&record, outcome),
            Err(refusal) => {
                report.count_refused(refusal);
                return report;
            }
        }
    }
}

impl Report {
    fn count(&mut self, record: &Record, outcome: Outcome) {
        if outcome.number != 0 {
            return self.count_refused(outcome.number);
        }
        self.accepted += 1;
        if let Record::Send { size, resend, .. } = *record {
            self.count_bytes(size.into(), resend != 0);
        }
        if let Some(sampling) = outcome.sampling {
            self.count_sampling(sampling);
        }
    }

    fn count_refused(&mut self, number: u8) {
        self.refused[usize::from(number)] += 1;
    }

    fn count_bytes(&mut self, size: u64, again: bool) {
        let bytes = if again {
            &mut self.again_bytes
        } else {
            &mut self.new_bytes
        };
        *bytes += size;
    }

    fn count_sampling(&mut self, sampling: Sampling) {
        let kind = match sampling {
            Sampling::Taken(_) => &mut self.taken,
            Sampling::Cut => &mut self.cut,
            Sampling::Gone => &mut self.gone,
            Sampling::Ambiguous => &mut self.ambiguous,
            Sampling::NotPositive => &mut self.not_positive,
        };
        *kind += 1;
        if let Some(ticks) = sampling.ticks() {
            self.count_sample(ticks);
        }
    }

    /// A sample is at least 1 (01, "Samples and delay"), so a least of 0 says that there was none,
    /// and there is a highest set bit.
    fn count_sample(&mut self, ticks: u64) {
        self.least = match self.least {
            0 => ticks,
            least => least.min(ticks),
        };
        self.greatest = self.greatest.max(ticks);
        self.buckets[ticks.ilog2() as usize] += 1;
    }
}

impl fmt::Display for Report {
    fn fmt(&self, f: &mut fmt::Formatter) -> fmt::Result {
        writeln!(f, "accepted {}", self.accepted)?;
        write_met(f, "refused", &self.refused)?;
        writeln!(f, "taken {}", self.taken)?;
        writeln!(f, "cut {}", self.cut)?;
        writeln!(f, "gone {}", self.gone)?;
        writeln!(f, "ambiguous {}", self.ambiguous)?;
        writeln!(f, "not-positive {}", self.not_positive)?;
        writeln!(f, "least {}", self.least)?;
        writeln!(f, "greatest {}", self.greatest)?;
        write_met(f, "bucket", &self.buckets)?;
        writeln!(f, "new {}", self.new_bytes)?;
        writeln!(f, "again {}", self.again_bytes)
    }
}

/// A line for each count that is not 0, with its number before it.
fn write_met(f: &mut fmt::Formatter, word: &str, counts: &[u64]) -> fmt::Result {
    for (number, &count) in counts.iter().enumerate() {
        if count != 0 {
            writeln!(f, "{word} {number} {count}")?;
        }
    }
    Ok(())
}
