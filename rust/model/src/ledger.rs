//! The ledger of 01, over one flow: its record and its ring are the flow's own; flying and marked
//! packets, marked bytes, backlog and in-flight are held once, over all flows, in the state.

use crate::bounds::{IN_FLIGHT_MIN, PSN_REACH, RESENDS_MAX, UNIT};
use crate::flow::Flow;
use crate::ring::{clear_bit, number_of, ones, set_bit, Ring, RingMut, Status, WORD};
use crate::state::State;

/// Does an ACK with this `cum` and `map` cover `psn`?
pub(crate) fn covers(cum: u32, map: u64, psn: u32) -> bool {
    let bit = psn.wrapping_sub(cum).wrapping_sub(1);
    cum.wrapping_sub(psn) <= PSN_REACH || (bit < u64::BITS && map >> bit & 1 == 1)
}

/// What the ledger has of one flow, to be read.
#[derive(Clone, Copy, Debug)]
pub(crate) struct Ledger<'a> {
    pub flow: &'a Flow,
    pub ring: Ring<'a>,
}

impl Ledger<'_> {
    /// The slot of `psn` if it is one of low..next-1.
    pub fn slot_of(&self, psn: u32) -> Option<usize> {
        let in_ledger = psn.wrapping_sub(self.flow.low) < self.flow.span();
        in_ledger.then(|| self.ring.slot(psn))
    }

    /// The slot of `psn` if it is one of low..next-1 and has this status.
    pub fn slot_with(&self, psn: u32, status: Status) -> Option<usize> {
        self.slot_of(psn)
            .filter(|&slot| self.ring.status(slot) == status)
    }

    /// The first marked PSN from `psn` on, which is one of low..next; next where there is none.
    pub fn first_marked(&self, psn: u32) -> u32 {
        let next = self.flow.next;
        let mut from = psn;
        while from != next {
            // Bits from next on are those of PSNs before `psn`, where the ring is nearly full.
            let many = next.wrapping_sub(from).min(u64::BITS);
            let marked = self.ring.marked_from(from) & ones(many as usize);
            if marked != 0 {
                return from.wrapping_add(marked.trailing_zeros());
            }
            from = from.wrapping_add(many);
        }
        next
    }
}

/// The same, lent to a step.
#[derive(Debug)]
pub(crate) struct LedgerMut<'a> {
    pub flow: &'a mut Flow,
    pub ring: RingMut<'a>,
}

impl LedgerMut<'_> {
    pub fn read(&self) -> Ledger<'_> {
        Ledger {
            flow: self.flow,
            ring: self.ring.read(),
        }
    }

    /// Low moves past done slots, which become zero.
    fn pass_done(&mut self) {
        loop {
            let low = self.flow.low;
            // From next on no slot is outstanding either.
            let done = self.ring.read().outstanding_from(low).trailing_zeros();
            let done = done.min(self.flow.span());
            self.ring.clear_numbers(low, done);
            self.flow.low = low.wrapping_add(done);
            // Behind fewer comes a packet that is not done, or next.
            if done < u64::BITS {
                return;
            }
        }
    }
}

/// The steps. Each changes the flow that it is lent, and the totals over all flows with it.
impl State {
    pub(crate) fn add_backlog(&mut self, ledger: &mut LedgerMut, bytes: u64) {
        ledger.flow.backlog += bytes;
        self.backlog += bytes;
    }

    /// The new packet, of PSN `next`, flies. Its slot was all zero.
    pub(crate) fn add_packet(&mut self, ledger: &mut LedgerMut, now: u64, size: u32) {
        let LedgerMut { flow, ring } = ledger;
        let slot = ring.read().slot(flow.next);
        set_bit(ring.outstanding, slot);
        ring.sizes[slot] = number_of(size, 0);
        ring.sent[slot] = now;
        flow.next = flow.next.wrapping_add(1);
        flow.backlog -= u64::from(size);
        self.flying += 1;
        self.backlog -= u64::from(size);
        self.in_flight += i64::from(size);
    }

    /// The marked packet in `slot` flies again.
    pub(crate) fn fly_again(&mut self, ledger: &mut LedgerMut, now: u64, slot: usize) {
        let ring = &mut ledger.ring;
        let size = ring.read().size(slot);
        let resends = (ring.read().resends(slot) + 1).min(RESENDS_MAX);
        clear_bit(ring.marked, slot);
        ring.sizes[slot] = number_of(size, resends);
        ring.sent[slot] = now;
        self.flying += 1;
        self.marked -= 1;
        self.marked_bytes -= u64::from(size);
        self.in_flight += i64::from(size);
    }

    /// The flying packet in `slot` is taken out as lost; its size is returned.
    pub(crate) fn mark(&mut self, ledger: &mut LedgerMut, slot: usize) -> u32 {
        let size = ledger.ring.read().size(slot);
        set_bit(ledger.ring.marked, slot);
        self.flying -= 1;
        self.marked += 1;
        self.marked_bytes += u64::from(size);
        self.in_flight -= i64::from(size);
        size
    }

    pub(crate) fn may_fall_by(&self, bytes: u64) -> bool {
        self.in_flight - bytes as i64 >= IN_FLIGHT_MIN
    }

    /// Takes in a count that is not old; the newly reported bytes are returned.
    pub(crate) fn take_count(&mut self, ledger: &mut LedgerMut, count: u32, units: u32) -> u64 {
        let newly = UNIT * u64::from(units);
        ledger.flow.held = count;
        self.in_flight -= newly as i64;
        newly
    }

    /// What an ACK covers becomes done, and low moves past done slots. The ACK must name sent
    /// packets only.
    pub(crate) fn deliver_covered(&mut self, ledger: &mut LedgerMut, cum: u32, map: u64) {
        let Flow { low, next, .. } = *ledger.flow;
        let back = next.wrapping_sub(1).wrapping_sub(cum);
        let span = ledger.flow.span();
        // PSNs of low..next-1 up to `cum`; or the map's PSNs that low has passed already.
        let covered = span.saturating_sub(back);
        let passed = back.saturating_sub(span);
        for from in (0..covered).step_by(WORD) {
            let bits = ones((covered - from) as usize);
            self.deliver(&mut ledger.ring, low.wrapping_add(from), bits);
        }
        let bits = map.checked_shr(passed).unwrap_or(0);
        self.deliver(&mut ledger.ring, low.wrapping_add(covered), bits);
        ledger.pass_done();
    }

    /// Packet `psn` + i becomes done where bit i is set and it flies or is marked. Each set bit must
    /// be of a PSN of low..next-1.
    fn deliver(&mut self, ring: &mut RingMut, psn: u32, bits: u64) {
        let outstanding = ring.read().outstanding_from(psn) & bits;
        if outstanding == 0 {
            return;
        }
        let marked = ring.read().marked_from(psn) & bits;
        self.flying -= u64::from((outstanding & !marked).count_ones());
        self.marked -= u64::from(marked.count_ones());
        let mut rest = marked;
        while rest != 0 {
            let slot = ring.read().slot(psn.wrapping_add(rest.trailing_zeros()));
            self.marked_bytes -= u64::from(ring.read().size(slot));
            rest &= rest - 1;
        }
        ring.clear_marks(psn, outstanding);
    }
}
