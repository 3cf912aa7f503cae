//! The sample step of 01, "Samples and delay", which says why where there is no sample (M-103).

use crate::bounds::SAMPLE_MAX;
use crate::ledger::Ledger;
use crate::ring::bit;

/// What the sample step says of a report on a packet.
#[derive(Clone, Copy, Debug, PartialEq, Eq)]
pub enum Sampling {
    /// A round trip of so many ticks, 1 to 2^20.
    Taken(u64),
    /// A longer round trip, which counts as 2^20.
    Cut,
    /// The packet is neither flying nor marked.
    Gone,
    /// Resend count and retx flag do not tell which copy is reported.
    Ambiguous,
    /// The round trip is less than a tick.
    NotPositive,
}

impl Sampling {
    /// The sample, where there is one.
    pub fn ticks(self) -> Option<u64> {
        match self {
            Sampling::Taken(ticks) => Some(ticks),
            Sampling::Cut => Some(SAMPLE_MAX),
            Sampling::Gone | Sampling::Ambiguous | Sampling::NotPositive => None,
        }
    }

    /// The last word of the replay's line.
    pub fn letter(self) -> char {
        match self {
            Sampling::Taken(_) => 's',
            Sampling::Cut => 'c',
            Sampling::Gone => 'g',
            Sampling::Ambiguous => 'a',
            Sampling::NotPositive => 'n',
        }
    }
}

impl Ledger<'_> {
    /// What a report on packet `psn` says of its round trip. Looks at the ring before the event's
    /// ledger step.
    pub fn sample(&self, now: u64, psn: u32, service: u32, retx: bool) -> Sampling {
        let ring = &self.ring;
        let in_ledger = self.slot_of(psn);
        let Some(slot) = in_ledger.filter(|&slot| bit(ring.outstanding, slot)) else {
            return Sampling::Gone;
        };
        if ring.resends(slot) != u32::from(retx) {
            return Sampling::Ambiguous;
        }
        // A service longer than the round trip leaves 0, which is no sample either.
        match (now - ring.sent[slot]).saturating_sub(service.into()) {
            0 => Sampling::NotPositive,
            ticks if ticks <= SAMPLE_MAX => Sampling::Taken(ticks),
            _ => Sampling::Cut,
        }
    }
}
