//! Number 2 of 01: do state and lent memory hold together? A held turn that names no flow is 2 too
//! (M-108). The tests run in an order in which each may rely on those before it, so that none can
//! overflow or leave a slice.

use crate::bounds::{
    AVG_MAX, BACKLOG_MAX, COUNT_END, INC_BYTES_MAX, IN_FLIGHT_MIN, LATER_END, RESENDS_MAX,
    SIZE_MIN, TALLY_MAX, TIME_END,
};
use crate::ledger::Ledger;
use crate::lent::Lent;
use crate::ring::{bit, ones, resends_of, size_of, Ring, WORD};
use crate::state::State;
use std::ops::Range;

/// True when nothing that number 2 names is wrong.
pub fn number_two(state: &State, lent: &Lent) -> bool {
    lent.lengths_good(state.settings.ev_count)
        && state.settings.in_range()
        && numbers_good(state)
        && lent.flow_allowed(state.turn).is_ok()
        && times_good(state, lent)
        && flows_good(state, lent)
        && totals_good(state, lent)
        && state.name == state.ruled_name()
}

fn numbers_good(state: &State) -> bool {
    let settings = &state.settings;
    let tallies = [
        state.received,
        state.achieved,
        state.ignored,
        state.fi_count,
    ];
    (1..=settings.config_base_rtt).contains(&state.base)
        && (settings.mtu..=state.max_wnd()).contains(&state.cwnd)
        && (IN_FLIGHT_MIN..=settings.max_wnd as i64).contains(&state.in_flight)
        && state.avg <= AVG_MAX
        && state.inc_bytes <= INC_BYTES_MAX
        && tallies.iter().all(|&tally| tally <= TALLY_MAX)
        && state.bytes_to_ignore <= settings.max_wnd
        && state.cursor < settings.ev_count.into()
}

fn times_good(state: &State, lent: &Lent) -> bool {
    state.clock < TIME_END
        && state.last_adjust <= state.clock
        && state.last_dec <= state.clock
        && state.qa_end < LATER_END
        && every(lent.ev_times, |time| time < LATER_END)
}

fn flows_good(state: &State, lent: &Lent) -> bool {
    let flows = 0..lent.flows.len() as u64;
    let mut ledgers = flows.flat_map(|flow| lent.ledger(flow));
    ledgers.all(|ledger| flow_good(state, &ledger))
}

fn flow_good(state: &State, ledger: &Ledger) -> bool {
    let Ledger { flow, ring } = ledger;
    let span = flow.span();
    if flow.backlog > BACKLOG_MAX || flow.held >= COUNT_END || span as usize > ring.capacity() {
        return false;
    }
    let used = ring.slots(flow.low, span);
    let others = ring.slots(flow.next, ring.capacity() as u32 - span);
    marks_good(ring, &used)
        && used
            .into_iter()
            .all(|slots| numbers_of_packets(state, ring, slots))
        && others.into_iter().all(|slots| numbers_zero(ring, slots))
        && low_not_done(ledger)
}

/// A marked slot is outstanding, and an outstanding one is used.
fn marks_good(ring: &Ring, used: &[Range<usize>; 2]) -> bool {
    let words = ring.outstanding.iter().zip(ring.marked).enumerate();
    let mut stray = words.map(|(word, (&outstanding, &marked))| {
        let used = used.iter().map(|slots| bits_within(slots, word));
        let used = used.fold(0, |all, bits| all | bits);
        marked & !outstanding | outstanding & !used
    });
    stray.all(|bits| bits == 0)
}

/// The bits of a word whose slots are among these.
fn bits_within(slots: &Range<usize>, word: usize) -> u64 {
    let first = word * WORD;
    ones(slots.end.saturating_sub(first)) & !ones(slots.start.saturating_sub(first))
}

fn numbers_of_packets(state: &State, ring: &Ring, slots: Range<usize>) -> bool {
    let most = state.settings.mtu as u32;
    let number_good = |number| {
        let size = size_of(number);
        (size >= SIZE_MIN) & (size <= most) & (resends_of(number) <= RESENDS_MAX)
    };
    every(&ring.sizes[slots.clone()], number_good)
        && every(&ring.sent[slots], |time| time <= state.clock)
}

fn numbers_zero(ring: &Ring, slots: Range<usize>) -> bool {
    let numbers = ring.sizes[slots.clone()].iter();
    let times = ring.sent[slots].iter();
    numbers.fold(0, |all, number| all | number) == 0 && times.fold(0, |all, time| all | time) == 0
}

/// Are all of them good? There is no early end: the compiler can then take several at a time.
fn every<T: Copy>(numbers: &[T], good: impl Fn(T) -> bool) -> bool {
    numbers.iter().fold(true, |all, &number| all & good(number))
}

fn low_not_done(Ledger { flow, ring }: &Ledger) -> bool {
    flow.low == flow.next || bit(ring.outstanding, ring.slot(flow.low))
}

/// The totals are over all flows: the words of bits are counted from end to end of the buffer. Every
/// mark must be of a slot in use, and every flow's backlog within its bound.
fn totals_good(state: &State, lent: &Lent) -> bool {
    let (mut flying, mut marked, mut marked_bytes) = (0, 0, 0);
    for (word, &bits) in lent.marked.iter().enumerate() {
        flying += u64::from((lent.outstanding[word] & !bits).count_ones());
        marked += u64::from(bits.count_ones());
        let mut rest = bits;
        while rest != 0 {
            let slot = word * WORD + rest.trailing_zeros() as usize;
            marked_bytes += u64::from(size_of(lent.sizes[slot]));
            rest &= rest - 1;
        }
    }
    let backlog: u64 = lent.flows.iter().map(|flow| flow.backlog).sum();
    (
        state.flying,
        state.marked,
        state.marked_bytes,
        state.backlog,
    ) == (flying, marked, marked_bytes, backlog)
}
