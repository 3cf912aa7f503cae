//! Made-up states that pass number 2: anything that its bounds allow, whether or not traffic could
//! lead to it.

use crate::numbers::{beside, first_psn, settings, within};
use crate::shape::Shape;
use crate::sides::Model;
use model::bounds::{
    AVG_MAX, BACKLOG_MAX, COUNT_END, INC_BYTES_MAX, IN_FLIGHT_MIN, LATER_END, SIZE_MIN, TALLY_MAX,
    TIME_END,
};
use model::ring::{bit, number_of, set_bit, size_of, WORD};
use model::{Flow, Memory, Name, Rng, State, Status};
use std::ops::Range;

/// A state with so many flows and slots. Each flow is made up by itself.
pub fn sound(rng: &mut Rng, shape: Shape) -> Model {
    let mut state = State {
        settings: settings(rng, true),
        ..State::default()
    };
    state.clock = match rng.below(4) {
        0 => rng.below(3),
        1 => TIME_END - 1 - rng.below(1 << 12),
        _ => rng.below(1 << 30),
    };
    set_window(rng, &mut state);
    set_times(rng, &mut state);
    state.turn = within(rng, 0, shape.flows as u64 - 1);
    let mut model = shape.model(state.settings.ev_count as usize);
    let memory = &mut model.memory;
    let flows: Vec<Flow> = (0..shape.flows)
        .map(|at| {
            let mut flow = flow(rng);
            set_ring(rng, &state, &mut flow, memory, shape.slots_of(at));
            flow
        })
        .collect();
    set_in_flight(rng, &mut state);
    set_ev_times(rng, &state, memory);
    settle(&mut state, &flows, memory);
    model.set_state(&state);
    model.set_flows(&flows);
    model
}

fn set_window(rng: &mut Rng, state: &mut State) {
    let settings = state.settings;
    state.base = within(rng, 1, settings.config_base_rtt);
    state.cwnd = within(rng, settings.mtu, state.max_wnd());
    // Around the target, where the cut starts.
    let target = beside(rng, settings.target_qdelay << 10);
    let above = target + rng.below(1 << 18);
    let any = within(rng, 0, AVG_MAX);
    state.avg = rng.pick(&[target, above, any]).min(AVG_MAX);
    state.inc_bytes = match rng.below(4) {
        0 => 0,
        1 => rng.below(1 << 36),
        2 => INC_BYTES_MAX - rng.below(1 << 30),
        _ => within(rng, 0, INC_BYTES_MAX),
    };
    state.received = tally(rng, settings.adjust_bytes);
    state.achieved = tally(rng, state.cwnd);
    state.fi_count = tally(rng, state.cwnd);
    state.bytes_to_ignore = within(rng, 0, settings.max_wnd);
    state.ignored = tally(rng, state.bytes_to_ignore);
    state.fast_mode = rng.one_in(2);
    state.trigger = rng.one_in(2);
    state.cursor = within(rng, 0, u64::from(settings.ev_count) - 1);
}

/// Around the number that it is compared with, or around its stop.
fn tally(rng: &mut Rng, compared: u64) -> u64 {
    let around = compared.saturating_sub(rng.below(1 << 13));
    let stop = TALLY_MAX - rng.below(1 << 13);
    let stop = rng.pick(&[TALLY_MAX, stop]);
    let any = within(rng, 0, TALLY_MAX);
    let at = beside(rng, compared);
    rng.pick(&[0, around, around, at, stop, any])
}

fn set_times(rng: &mut Rng, state: &mut State) {
    let clock = state.clock;
    let ago = |ticks: u64| clock.saturating_sub(ticks);
    let around_period = beside(rng, state.settings.adjust_period);
    let around_base = beside(rng, state.base);
    let (any, other) = (rng.below(clock + 1), rng.below(clock + 1));
    state.last_adjust = rng.pick(&[clock, ago(around_period), any, 0]);
    state.last_dec = rng.pick(&[clock, ago(around_base), other, 0]);
    let soon = clock + rng.below(2 * state.base);
    let passed = rng.below(clock + 1);
    state.qa_end = rng.pick(&[0, clock, clock + 1, soon, passed, LATER_END - 1]);
}

/// A flow, before anything is in its ring.
fn flow(rng: &mut Rng) -> Flow {
    let backlog = match rng.below(4) {
        0 => 0,
        1 => within(rng, 0, 1 << 14),
        2 => within(rng, 0, BACKLOG_MAX),
        _ => rng.below(1 << 24),
    };
    let held = match rng.below(3) {
        0 => rng.below(64) as u32,
        1 => COUNT_END - 1 - rng.below(64) as u32,
        _ => rng.below(COUNT_END.into()) as u32,
    };
    Flow {
        held,
        backlog,
        ..Flow::default()
    }
}

/// Fills the flow's ring, which has these slots: often all of it, or all but a few.
fn set_ring(
    rng: &mut Rng,
    state: &State,
    flow: &mut Flow,
    memory: &mut Memory,
    slots: Range<usize>,
) {
    use Status::{Done, Flying, Marked};
    let capacity = slots.len() as u64;
    let many = match rng.below(6) {
        0 => rng.below(4),
        1 => within(rng, 0, capacity),
        2 => capacity - rng.pick(&[0, 0, 1, 2]),
        3 => capacity - rng.below(capacity.min(70)),
        _ => rng.below(capacity.min(100)),
    };
    flow.low = low(rng, capacity);
    flow.next = flow.low.wrapping_add(many as u32);
    let mixes: [&[Status]; 4] = [
        &[Flying],
        &[Flying, Flying, Marked, Done],
        &[Flying, Done, Done, Done],
        &[Marked, Marked, Flying, Done],
    ];
    let mix = rng.pick(&mixes);
    // Where a mix is seldom, low passes whole words, and the next marked packet is words away.
    let (seldom, mostly) = (rng.pick(&[1, 1, 8, 100]), rng.pick(&[Flying, Done]));
    for i in 0..many {
        let slot = slots.start + (u64::from(flow.low) + i) as usize % slots.len();
        let mixed = rng.pick(mix);
        let status = if rng.one_in(seldom) { mixed } else { mostly };
        // Low is not done.
        let status = if i == 0 && status == Done {
            Flying
        } else {
            status
        };
        put_marks(memory, slot, status);
        let size = within(rng, SIZE_MIN.into(), state.settings.mtu);
        memory.sizes[slot] = number_of(size as u32, rng.pick(&[0, 0, 0, 1, 1, 2]));
        memory.sent[slot] = sent(rng, state);
    }
}

/// The marks of an empty slot.
fn put_marks(memory: &mut Memory, slot: usize, status: Status) {
    if status != Status::Done {
        set_bit(&mut memory.outstanding, slot);
    }
    if status == Status::Marked {
        set_bit(&mut memory.marked, slot);
    }
}

/// Any PSN, one at or beside a word's start, one from which packets go around the ring's end, or one
/// from which they go around 2^32 too.
fn low(rng: &mut Rng, capacity: u64) -> u32 {
    let any = first_psn(rng);
    let back = rng.below(capacity.min(130)) as u32;
    match rng.below(5) {
        0 => (any & !63)
            .wrapping_sub(1)
            .wrapping_add(rng.below(3) as u32),
        1 => (any & !(capacity as u32 - 1)).wrapping_sub(back),
        2 => 0u32.wrapping_sub(back),
        3 => 0u32.wrapping_sub(rng.below(capacity) as u32),
        _ => any,
    }
}

/// A send time: lately, at the edge of a sample that is cut, or any.
fn sent(rng: &mut Rng, state: &State) -> u64 {
    let clock = state.clock;
    let long = beside(rng, (1 << 20) + state.base);
    let any = rng.below(clock + 1);
    let lately = clock.saturating_sub(rng.below(4 * state.base));
    rng.pick(&[
        clock,
        lately,
        lately,
        lately,
        clock.saturating_sub(long),
        any,
    ])
}

/// At its bounds, at 0, or where the window opens and closes.
fn set_in_flight(rng: &mut Rng, state: &mut State) {
    let most = state.settings.max_wnd as i64;
    let open = state.cwnd as i64 - state.settings.mtu as i64;
    let deep = IN_FLIGHT_MIN + rng.below(1 << 14) as i64;
    let any = rng.below((most - IN_FLIGHT_MIN) as u64 + 1) as i64 + IN_FLIGHT_MIN;
    let some = rng.below(most as u64 + 1) as i64;
    let in_flight = [
        IN_FLIGHT_MIN,
        deep,
        deep,
        -1,
        0,
        1,
        open,
        open,
        open + 1,
        most,
        any,
        some,
    ];
    state.in_flight = rng.pick(&in_flight).min(most);
}

/// None avoided, about half of them, or most.
fn set_ev_times(rng: &mut Rng, state: &State, memory: &mut Memory) {
    let evs = memory.ev_times.len();
    let half = evs / 2;
    let avoided = rng.pick(&[0, 1, half - 1, half, half + 1, evs - 1, evs]);
    let turn = rng.below(evs as u64) as usize;
    for i in 0..evs {
        let later = state.clock + rng.pick(&[1, 1, 2, 100, state.base]);
        let earlier = rng.below(state.clock + 1);
        let furthest = LATER_END - 1;
        let time = if i < avoided {
            rng.pick(&[later, later, later, furthest])
        } else {
            rng.pick(&[0, earlier, state.clock])
        };
        memory.ev_times[(i * 77 + turn) % evs] = time;
    }
}

/// Makes totals and name those that number 2 asks for.
pub fn settle(state: &mut State, flows: &[Flow], memory: &Memory) {
    // A backlog may be spoilt.
    let backlogs = flows.iter().map(|flow| flow.backlog);
    state.backlog = backlogs.fold(0, u64::wrapping_add);
    let words = memory.outstanding.iter().zip(&memory.marked);
    let flying = words.map(|(outstanding, marked)| (outstanding & !marked).count_ones());
    state.flying = flying.map(u64::from).sum();
    let marked = memory.marked.iter().map(|word| word.count_ones());
    state.marked = marked.map(u64::from).sum();
    // A length may be spoilt.
    let slots = 0..memory.sizes.len().min(WORD * memory.marked.len());
    let marked = slots.filter(|&slot| bit(&memory.marked, slot));
    state.marked_bytes = marked
        .map(|slot| u64::from(size_of(memory.sizes[slot])))
        .sum();
    set_name(state);
}

/// Makes the name that of the totals.
pub fn set_name(state: &mut State) {
    let nothing_to_send = state.backlog == 0 && state.marked == 0;
    let needed = i128::from(state.in_flight) + i128::from(state.settings.mtu);
    state.name = match state.flying {
        0 if nothing_to_send => Name::Idle,
        _ if nothing_to_send => Name::Pending,
        _ if needed <= i128::from(state.cwnd) => Name::Ready,
        _ => Name::Active,
    };
}
