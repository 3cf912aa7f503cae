//! The delay average and the window of 01.

use crate::bounds::{AVG_PARTS, INC_BYTES_MAX, TALLY_MAX};
use crate::sampling::Sampling;
use crate::state::State;

/// `tally + bytes`, stopping at 2^40.
fn tally(tally: u64, bytes: u64) -> u64 {
    (tally + bytes).min(TALLY_MAX)
}

impl State {
    /// The window rules of an ACK, after its ledger step.
    pub(crate) fn window_on_ack(&mut self, now: u64, newly: u64, sampling: Sampling, marked: bool) {
        self.ignored = tally(self.ignored, newly);
        self.received = tally(self.received, newly);
        self.achieved = tally(self.achieved, newly);
        let delay = self.delay_on_ack(sampling, marked);
        if self.quick_adapt(now, false, marked, delay) {
            return;
        }
        match (marked, delay < self.settings.target_qdelay) {
            (false, true) => self.proportional_increase(newly, delay),
            (false, false) => self.fair_increase(newly),
            (true, true) => self.leave_fast_mode(),
            (true, false) => self.multiplicative_decrease(now),
        }
        self.adjust(now);
    }

    /// The delay of this ACK; without a sample it is the average, and the filter is not fed.
    fn delay_on_ack(&mut self, sampling: Sampling, marked: bool) -> u64 {
        let Some(sample) = sampling.ticks() else {
            return self.average();
        };
        self.lower_base(sample);
        let delay = sample - self.base;
        // An unmarked delay of this size is no word on the present queue (01, "Samples and delay").
        let doubtful = !marked && self.settings.target_qdelay < delay && delay <= 5 * self.base;
        self.feed(if doubtful { self.base / 4 } else { delay });
        delay
    }

    /// Where the base falls, the ceiling falls with it, and cwnd is clamped at once.
    pub(crate) fn lower_base(&mut self, sample: u64) {
        if sample < self.base {
            self.base = sample;
            self.clamp();
        }
    }

    fn clamp(&mut self) {
        self.cwnd = self.cwnd.min(self.max_wnd());
    }

    pub(crate) fn feed(&mut self, ticks: u64) {
        self.avg = (79 * self.avg + AVG_PARTS * ticks) / 80;
    }

    /// Unmarked and below the target: fast mode near the base, else growth in proportion.
    fn proportional_increase(&mut self, newly: u64, delay: u64) {
        self.fast_increase(newly, delay);
        if !self.fast_mode {
            self.grow_later(self.settings.alpha * newly * (self.settings.target_qdelay - delay));
        }
    }

    fn fast_increase(&mut self, newly: u64, delay: u64) {
        let near = delay <= self.base / 8;
        if !near {
            self.leave_fast_mode();
            return;
        }
        if !self.fast_mode {
            self.fi_count = tally(self.fi_count, newly);
            self.fast_mode = self.fi_count > self.cwnd;
        }
        if self.fast_mode {
            self.cwnd += newly;
            self.clamp();
        }
    }

    fn fair_increase(&mut self, newly: u64) {
        self.leave_fast_mode();
        self.grow_later(self.settings.fi * newly);
    }

    fn multiplicative_decrease(&mut self, now: u64) {
        self.leave_fast_mode();
        let target = self.settings.target_qdelay;
        let average = self.average();
        let ignoring = self.ignored < self.bytes_to_ignore;
        if ignoring || average <= target || now - self.last_dec <= self.base {
            return;
        }
        let cut = self.settings.gamma * (average - target) / average;
        let factor = (1_024 - cut).max(self.settings.max_md_jump);
        self.cwnd = (self.cwnd * factor / 1_024).max(self.settings.mtu);
        self.last_dec = now;
    }

    fn leave_fast_mode(&mut self) {
        self.fast_mode = false;
        self.fi_count = 0;
    }

    fn grow_later(&mut self, inc_bytes: u64) {
        self.inc_bytes = (self.inc_bytes + inc_bytes).min(INC_BYTES_MAX);
    }

    /// Applies the growth saved up, once there are enough bytes or the period has passed.
    fn adjust(&mut self, now: u64) {
        let period_passed = now - self.last_adjust >= self.settings.adjust_period;
        if !period_passed && self.received < self.settings.adjust_bytes {
            return;
        }
        self.cwnd += self.inc_bytes / self.cwnd;
        if period_passed {
            self.last_adjust = now;
            self.cwnd += self.settings.eta;
        }
        self.clamp();
        self.inc_bytes = 0;
        self.received = 0;
    }

    /// True if it fired. Uses in-flight as the event's ledger step has left it.
    fn quick_adapt(&mut self, now: u64, loss: bool, marked: bool, delay: u64) -> bool {
        if self.settings.quick_adapt_off || now < self.qa_end {
            return false;
        }
        let cause = self.trigger || loss || delay > self.settings.qa_threshold;
        let fires = self.qa_end != 0 && marked && cause && self.achieved < self.cwnd;
        if fires {
            self.cwnd = self.achieved.max(self.settings.mtu);
            self.bytes_to_ignore = self.in_flight.max(0) as u64;
            self.ignored = 0;
            self.trigger = false;
            self.leave_fast_mode();
        }
        self.achieved = 0;
        self.qa_end = now + self.base + self.settings.target_qdelay;
        fires
    }

    /// The window rules of a trimmed or lost packet, after its ledger step, sample and feed.
    pub(crate) fn window_on_loss(&mut self, now: u64, size: u32) {
        let size = u64::from(size);
        self.ignored = tally(self.ignored, size);
        self.trigger = true;
        if !self.quick_adapt(now, true, true, 0) {
            self.cwnd = self.cwnd.saturating_sub(size).max(self.settings.mtu);
        }
    }
}
