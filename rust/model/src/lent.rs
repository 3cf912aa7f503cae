//! The lent memory: a table of flow records, the buffer of their rings and the EV times.

use crate::bounds::{CAPACITY_MAX, CAPACITY_MIN, EVS_USUAL, FLOWS_MAX};
use crate::flow::Flow;
use crate::ledger::{Ledger, LedgerMut};
use crate::refusal::Refusal;
use crate::ring::{Ring, RingMut, WORD};
use std::ops::Range;

/// One to eight flows; the ring buffer as four slices, cut into as many equal parts: that of flow k
/// begins at k times the capacity of a ring; and a time for each EV.
#[derive(Debug, PartialEq, Eq)]
pub struct Lent<'a> {
    pub flows: &'a mut [Flow],
    /// A bit a slot: flying or marked.
    pub outstanding: &'a mut [u64],
    /// A bit a slot.
    pub marked: &'a mut [u64],
    /// Size and resend count: see [`number_of`](crate::ring::number_of). 0 for an empty slot.
    pub sizes: &'a mut [u32],
    pub sent: &'a mut [u64],
    pub ev_times: &'a mut [u64],
}

impl Lent<'_> {
    /// Slots of each flow's ring.
    pub fn capacity(&self) -> usize {
        let flows = self.flows.len();
        self.sizes.len().checked_div(flows).unwrap_or(0)
    }

    /// The lengths are those of one to eight flows, each with a ring, and of so many EVs.
    pub fn lengths_good(&self, ev_count: u32) -> bool {
        let (flows, capacity) = (self.flows.len(), self.capacity());
        let slots = flows * capacity;
        (1..=FLOWS_MAX).contains(&flows)
            && capacity.is_power_of_two()
            && (CAPACITY_MIN..=CAPACITY_MAX).contains(&capacity)
            && self.outstanding.len() == slots / WORD
            && self.marked.len() == slots / WORD
            && self.sizes.len() == slots
            && self.sent.len() == slots
            && self.ev_times.len() == ev_count as usize
    }

    /// There is such a flow.
    pub(crate) fn flow_allowed(&self, flow: u64) -> Result<(), Refusal> {
        Refusal::Flow.unless(flow < self.flows.len() as u64)
    }

    /// The slots of a flow's part of the ring buffer, and its words of bits.
    fn part(&self, flow: usize) -> (Range<usize>, Range<usize>) {
        let capacity = self.capacity();
        let start = flow * capacity;
        let end = start + capacity;
        (start..end, start / WORD..end / WORD)
    }

    /// A flow with its part of the ring buffer, to be read. The lengths must be good.
    pub(crate) fn ledger(&self, flow: u64) -> Result<Ledger<'_>, Refusal> {
        self.flow_allowed(flow)?;
        let flow = flow as usize;
        let (slots, words) = self.part(flow);
        Ok(Ledger {
            flow: &self.flows[flow],
            ring: Ring {
                outstanding: &self.outstanding[words.clone()],
                marked: &self.marked[words],
                sizes: &self.sizes[slots.clone()],
                sent: &self.sent[slots],
            },
        })
    }

    /// The same, lent to a step. Where it is inlined, an event is faster by a tenth.
    #[inline]
    pub(crate) fn ledger_mut(&mut self, flow: u64) -> Result<LedgerMut<'_>, Refusal> {
        self.flow_allowed(flow)?;
        let flow = flow as usize;
        let (slots, words) = self.part(flow);
        Ok(LedgerMut {
            flow: &mut self.flows[flow],
            ring: RingMut {
                outstanding: &mut self.outstanding[words.clone()],
                marked: &mut self.marked[words],
                sizes: &mut self.sizes[slots.clone()],
                sent: &mut self.sent[slots],
            },
        })
    }

    /// A copy, to be changed in place of what is lent.
    pub(crate) fn copied(&self) -> Memory {
        Memory {
            flows: self.flows.to_vec(),
            outstanding: self.outstanding.to_vec(),
            marked: self.marked.to_vec(),
            sizes: self.sizes.to_vec(),
            sent: self.sent.to_vec(),
            ev_times: self.ev_times.to_vec(),
        }
    }

    /// Every flow fresh, with this first PSN, and an empty ring; the EV times 0.
    pub(crate) fn clear(&mut self, first_psn: u32) {
        self.flows.fill(Flow::fresh(first_psn));
        self.outstanding.fill(0);
        self.marked.fill(0);
        self.sizes.fill(0);
        self.sent.fill(0);
        self.ev_times.fill(0);
    }
}

/// Memory of one's own that can be lent.
#[derive(Clone, Debug, PartialEq, Eq)]
pub struct Memory {
    pub flows: Vec<Flow>,
    pub outstanding: Vec<u64>,
    pub marked: Vec<u64>,
    pub sizes: Vec<u32>,
    pub sent: Vec<u64>,
    pub ev_times: Vec<u64>,
}

impl Memory {
    /// One flow with a ring of so many slots, and 256 EV times.
    pub fn new(capacity: usize) -> Memory {
        Memory::with_evs(capacity, EVS_USUAL as usize)
    }

    /// One flow with a ring of so many slots.
    pub fn with_evs(capacity: usize, evs: usize) -> Memory {
        Memory::with_flows(1, capacity, evs)
    }

    /// So many flows, each with a ring of so many slots.
    pub fn with_flows(flows: usize, capacity: usize, evs: usize) -> Memory {
        let slots = flows * capacity;
        Memory {
            flows: vec![Flow::default(); flows],
            outstanding: vec![0; slots / WORD],
            marked: vec![0; slots / WORD],
            sizes: vec![0; slots],
            sent: vec![0; slots],
            ev_times: vec![0; evs],
        }
    }

    /// Slots of each flow's ring.
    pub fn capacity(&self) -> usize {
        let flows = self.flows.len();
        self.sizes.len().checked_div(flows).unwrap_or(0)
    }

    pub fn lend(&mut self) -> Lent<'_> {
        Lent {
            flows: &mut self.flows,
            outstanding: &mut self.outstanding,
            marked: &mut self.marked,
            sizes: &mut self.sizes,
            sent: &mut self.sent,
            ev_times: &mut self.ev_times,
        }
    }
}
