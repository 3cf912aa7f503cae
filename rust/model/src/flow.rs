//! The flows under one window (M-107): the record that each has in the lent table.

use crate::bounds::{COUNT_END, COUNT_OLD, PSN_REACH};

/// What a flow has of its own, beside its ring.
#[derive(Clone, Copy, Debug, Default, PartialEq, Eq)]
pub struct Flow {
    /// The oldest PSN not yet passed.
    pub low: u32,
    /// The PSN of the next new packet.
    pub next: u32,
    /// The newest received count.
    pub held: u32,
    pub backlog: u64,
}

impl Flow {
    /// A flow of which nothing has been sent.
    pub fn fresh(first_psn: u32) -> Flow {
        Flow {
            low: first_psn,
            next: first_psn,
            ..Flow::default()
        }
    }

    /// How many PSNs low..next-1 has.
    pub fn span(&self) -> u32 {
        self.next.wrapping_sub(self.low)
    }

    /// Every packet that an ACK names has been sent, and the ACK is not too old.
    pub(crate) fn names_sent(&self, cum: u32, map: u64) -> bool {
        let back = self.next.wrapping_sub(1).wrapping_sub(cum);
        // One more than the highest set bit; 0 for a map of 0.
        let reach = u64::BITS - map.leading_zeros();
        back <= PSN_REACH && reach <= back
    }

    /// Units by which `count` is ahead of the held one; `None` if it is old.
    pub(crate) fn forward_units(&self, count: u32) -> Option<u32> {
        let ahead = count.wrapping_sub(self.held) & (COUNT_END - 1);
        (ahead < COUNT_OLD).then_some(ahead)
    }
}
