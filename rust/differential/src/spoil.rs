//! Something in a context spoilt.

use crate::numbers::{any_ev_count, instead_of, least_base, lent_evs};
use crate::sides::Model;
use crate::sound::{set_name, settle};
use model::bounds::{
    AVG_MAX, BACKLOG_MAX, COUNT_END, EVS_MAX, EVS_MIN, INC_BYTES_MAX, LATER_END, RESENDS_MAX,
    SIZE_MIN, TALLY_MAX, TIME_END,
};
use model::ring::{clear_bit, number_of, resends_of, set_bit, size_of, WORD};
use model::{Flow, Memory, Rng, Settings, State};
use nscc::{FlowWord, Word, FLOWS_MAX, FLOW_WORDS, IN_FLIGHT_ADDED, WORDS};

/// A word, an element, a length or the totals. Often totals and name are then made to agree with it,
/// so that nothing but the fault itself is wrong.
pub fn spoil(rng: &mut Rng, model: &mut Model) {
    let (Some(state), Some(flows)) = (model.state(), model.flows()) else {
        return;
    };
    match rng.below(21) {
        0..=6 => spoil_word(rng, model, &state, flows.len()),
        7..=10 => spoil_flow(rng, model, &flows),
        11..=15 => spoil_element(rng, model, &state, &flows),
        16 => spoil_evs(rng, model),
        17 => return one_counted(rng, model, state, &flows),
        18 => spoil_turn(rng, model, flows.len()),
        _ => spoil_length(rng, model),
    }
    if rng.one_in(2) {
        settle_again(model);
    }
}

fn settle_again(model: &mut Model) {
    let (Some(mut state), Some(flows)) = (model.state(), model.flows()) else {
        return;
    };
    settle(&mut state, &flows, &model.memory);
    model.set_state(&state);
}

fn spoil_word(rng: &mut Rng, model: &mut Model, state: &State, flows: usize) {
    let i = rng.below(WORDS as u64) as usize;
    let (least, most) = limits(Word::ALL[i], state, flows);
    let any = instead_of(rng, model.words[i]);
    model.words[i] = rng.pick(&[
        least,
        least.wrapping_sub(1),
        most,
        most.wrapping_add(1),
        any,
        any,
        any,
    ]);
}

/// The least and the greatest number that a word may have in this state, of so many flows.
fn limits(word: Word, state: &State, flows: usize) -> (u64, u64) {
    let settings = &state.settings;
    let ranges = Settings::ranges(settings.mtu);
    if let Some(range) = ranges.get(word as usize) {
        return (*range.start(), *range.end());
    }
    match word {
        Word::QuickAdaptOff | Word::Fast | Word::Trigger => (0, 1),
        Word::Backlog => (0, FLOWS_MAX as u64 * BACKLOG_MAX),
        Word::InFlight => (0, settings.max_wnd.wrapping_add(IN_FLIGHT_ADDED as u64)),
        Word::Cwnd => (settings.mtu, most_cwnd(state)),
        Word::Base => (least_base(state), settings.config_base_rtt),
        Word::Avg => (0, AVG_MAX),
        Word::IncBytes => (0, INC_BYTES_MAX),
        Word::Received | Word::Achieved | Word::Ignored | Word::FiCount => (0, TALLY_MAX),
        Word::BytesToIgnore => (0, settings.max_wnd),
        Word::QaEnd => (0, LATER_END - 1),
        Word::LastAdjust | Word::LastDec => (0, state.clock),
        Word::Clock => (state.last_adjust.max(state.last_dec), TIME_END - 1),
        Word::Cursor => (0, u64::from(settings.ev_count).wrapping_sub(1)),
        Word::EvCount => (EVS_MIN.into(), EVS_MAX.into()),
        Word::Turn => (0, (flows as u64).wrapping_sub(1)),
        Word::Phase => (0, 3),
        // The first PSN, and totals that have no bound of their own.
        _ => (0, u32::MAX.into()),
    }
}

/// max_wnd, or MaxWnd where what it is made of is spoilt already.
fn most_cwnd(state: &State) -> u64 {
    let settings = &state.settings;
    let base_good = (1..=settings.config_base_rtt).contains(&state.base);
    if settings.in_range() && base_good {
        state.max_wnd()
    } else {
        settings.max_wnd
    }
}

/// A word of any flow: at an edge of its range or of the ring, another flow's, or any.
fn spoil_flow(rng: &mut Rng, model: &mut Model, flows: &[Flow]) {
    let Some(at) = any_of(rng, flows) else {
        return;
    };
    let capacity = model.memory.sizes.len() / flows.len();
    let Flow { low, next, .. } = flows[at];
    // The ring is full, or fuller than that.
    let span = capacity as u32 + rng.below(2) as u32;
    let word = rng.pick(&FlowWord::ALL);
    let (most, edge) = match word {
        FlowWord::Low => (u32::MAX.into(), next.wrapping_sub(span)),
        FlowWord::Next => (u32::MAX.into(), low.wrapping_add(span)),
        FlowWord::Held => (u64::from(COUNT_END) - 1, 0),
        FlowWord::Backlog => (BACKLOG_MAX, 0),
    };
    let place = |flow: usize| flow * FLOW_WORDS + word as usize;
    let other = model.table[place(rng.below(flows.len() as u64) as usize)];
    let number = &mut model.table[place(at)];
    let any = instead_of(rng, *number);
    *number = rng.pick(&[edge.into(), most, most + 1, other, any, any, any]);
}

fn any_of(rng: &mut Rng, flows: &[Flow]) -> Option<usize> {
    let at = rng.below(flows.len() as u64) as usize;
    (at < flows.len()).then_some(at)
}

/// Totals and name of a flow by itself, as if there were no others.
fn one_counted(rng: &mut Rng, model: &mut Model, state: State, flows: &[Flow]) {
    let Some(at) = any_of(rng, flows) else {
        return;
    };
    let mut alone = model.memory.clone();
    let words = alone.marked.len() / flows.len();
    for marks in [&mut alone.outstanding, &mut alone.marked] {
        let others = marks.iter_mut().enumerate();
        let others = others.filter(|(word, _)| word.checked_div(words) != Some(at));
        others.for_each(|(_, word)| *word = 0);
    }
    let mut counted = state;
    settle(&mut counted, &flows[at..=at], &alone);
    // All of the totals, or one of them.
    let which = rng.below(8);
    let takes = |total| which == total || which > 3;
    let mut state = state;
    if takes(0) {
        state.backlog = counted.backlog;
    }
    if takes(1) {
        state.flying = counted.flying;
    }
    if takes(2) {
        state.marked = counted.marked;
    }
    if takes(3) {
        state.marked_bytes = counted.marked_bytes;
    }
    set_name(&mut state);
    model.set_state(&state);
}

/// An element of a flow's ring or an EV time. Most are in the part of the ring that is used, or
/// beside it.
fn spoil_element(rng: &mut Rng, model: &mut Model, state: &State, flows: &[Flow]) {
    let Some(flow) = any_of(rng, flows) else {
        return;
    };
    let memory = &mut model.memory;
    let capacity = (memory.sizes.len() / flows.len()) as u64;
    let first = flow as u64 * capacity;
    let flow = flows[flow];
    let (low, next) = (u64::from(flow.low), u64::from(flow.next));
    let used = u64::from(flow.span()) + 2;
    let near = u64::from(flow.low.wrapping_sub(1)) + rng.below(used);
    let any = rng.next_u64();
    let [before, last] = [low, next].map(|psn| psn.wrapping_sub(1));
    let psn = rng.pick(&[near, near, near, low, before, last, next, any]);
    // A length may be spoilt already.
    let at = first + psn.checked_rem(capacity).unwrap_or(0);
    let strange = |rng: &mut Rng, number: u64, edges: [u64; 4]| {
        let any = instead_of(rng, number);
        let edge = rng.pick(&edges);
        rng.pick(&[any, edge])
    };
    let (most, clock) = (state.settings.mtu, state.clock);
    // Something may be spoilt already.
    let (over, later) = (most.wrapping_add(1), clock.wrapping_add(1));
    let least = u64::from(SIZE_MIN);
    let again = u64::from(RESENDS_MAX);
    let late = LATER_END;
    match rng.below(8) {
        0..=2 => spoil_marks(rng, memory, at),
        3 => change(&mut memory.sizes, at, |n| {
            let size = strange(rng, size_of(n).into(), [least - 1, least, most, over]);
            number_of((size as u16).into(), resends_of(n))
        }),
        4 => change(&mut memory.sizes, at, |n| {
            let resends = strange(rng, resends_of(n).into(), [0, again, again + 1, 65_535]);
            number_of(size_of(n), (resends as u16).into())
        }),
        5 => change(&mut memory.sizes, at, |n| {
            strange(rng, n.into(), [0, 1, 1 << 16, u32::MAX.into()]) as u32
        }),
        6 => change(&mut memory.sent, at, |n| {
            strange(rng, n, [0, clock, later, TIME_END])
        }),
        _ => change(&mut memory.ev_times, any, |n| {
            strange(rng, n, [0, late - 1, late, u64::MAX])
        }),
    }
}

/// A single bit flipped, or a slot marked that is not outstanding, or that holds no packet.
fn spoil_marks(rng: &mut Rng, memory: &mut Memory, at: u64) {
    let words = memory.outstanding.len().min(memory.marked.len());
    if words == 0 {
        return;
    }
    let slot = (at % (WORD * words) as u64) as usize;
    let (word, bit) = (slot / WORD, 1 << (slot % WORD));
    match rng.below(4) {
        0 => memory.outstanding[word] ^= bit,
        1 => memory.marked[word] ^= bit,
        2 => {
            clear_bit(&mut memory.outstanding, slot);
            set_bit(&mut memory.marked, slot);
        }
        _ => {
            set_bit(&mut memory.outstanding, slot);
            set_bit(&mut memory.marked, slot);
        }
    }
}

fn change<T: Copy>(numbers: &mut [T], at: u64, with: impl FnOnce(T) -> T) {
    if !numbers.is_empty() {
        let i = (at % numbers.len() as u64) as usize;
        numbers[i] = with(numbers[i]);
    }
}

/// Another EV count, which may be allowed, and mostly as many EV times. The cursor may be at its end.
fn spoil_evs(rng: &mut Rng, model: &mut Model) {
    let count = any_ev_count(rng);
    let lent = lent_evs(rng, count);
    model.memory.ev_times.resize(lent, 0);
    if let Some(word) = model.words.get_mut(Word::EvCount as usize) {
        *word = count.into();
    }
    let end = u64::from(count);
    if let Some(word) = model.words.get_mut(Word::Cursor as usize) {
        *word = rng.pick(&[*word, *word, end, end.wrapping_sub(1)]);
    }
}

/// A held turn at the last of so many flows, one past it or far past it.
fn spoil_turn(rng: &mut Rng, model: &mut Model, flows: usize) {
    let end = flows as u64;
    let turn = &mut model.words[Word::Turn as usize];
    let any = instead_of(rng, *turn);
    *turn = rng.pick(&[end.wrapping_sub(1), end, end, u64::MAX, any]);
}

/// One slice longer or shorter, or the whole ring buffer of a capacity that no ring has.
pub fn spoil_length(rng: &mut Rng, model: &mut Model) {
    let flows = model.table.len() / FLOW_WORDS;
    let memory = &mut model.memory;
    let (words, numbers) = (memory.outstanding.len(), memory.sizes.len());
    match rng.below(12) {
        0 => memory.outstanding.resize(other_length(rng, words), 0),
        1 => memory.marked.resize(other_length(rng, words), 0),
        2 => memory.sizes.resize(other_length(rng, numbers), 0),
        3 => memory.sent.resize(other_length(rng, numbers), 0),
        4 => {
            // The bits of another ring than the numbers.
            let words = other_length(rng, words);
            memory.outstanding.resize(words, 0);
            memory.marked.resize(words, 0);
        }
        5 => {
            let numbers = other_length(rng, numbers);
            memory.sizes.resize(numbers, 0);
            memory.sent.resize(numbers, 0);
        }
        6 => {
            let evs = memory.ev_times.len();
            let lengths = [0, 1, 256, evs / 2, evs.saturating_sub(1), evs + 1, 2 * evs];
            memory.ev_times.resize(rng.pick(&lengths), 0);
        }
        7 => {
            let length = rng.pick(&[0, 1, WORDS - 1, WORDS + 1, 2 * WORDS]);
            model.words.resize(length, 0);
        }
        8 => {
            let beside = [model.table.len() + 1, model.table.len().saturating_sub(1)];
            let beside = rng.pick(&beside);
            let length = rng.pick(&[0, 3, 5, 36, 32, 33, beside, beside]);
            model.table.resize(length, 0);
        }
        9 | 10 => spoil_count(rng, model, flows),
        _ => {
            let capacity = rng.pick(&[0, 1, 32, 63, 65, 96, 192, 1000, 4095, 4160, 8192]);
            let slots = capacity * rng.pick(&[1, flows]);
            let words = rng.pick(&[slots / WORD, slots.div_ceil(WORD)]);
            resize_rings(memory, words, slots);
        }
    }
}

/// Another number of flows, often with as many rings, which is a context again from one to eight.
fn spoil_count(rng: &mut Rng, model: &mut Model, flows: usize) {
    let (fewer, more) = (flows.saturating_sub(1), flows + 1);
    let many = rng.pick(&[0, fewer, more, more, 8, 9, 16]);
    model.table.resize(many * FLOW_WORDS, 0);
    let memory = &mut model.memory;
    let capacity = memory.sizes.len().checked_div(flows).unwrap_or(0);
    // Ten rings of 4,096 slots are a lot to compare.
    if rng.one_in(4) || capacity > 1_024 && many > 8 {
        return;
    }
    let slots = many * capacity;
    resize_rings(memory, slots / WORD, slots);
}

fn resize_rings(memory: &mut Memory, words: usize, slots: usize) {
    memory.outstanding.resize(words, 0);
    memory.marked.resize(words, 0);
    memory.sizes.resize(slots, 0);
    memory.sent.resize(slots, 0);
}

/// Wrong by one, by 64 or by a factor of 2 or 64, which is where bits are taken for slots.
fn other_length(rng: &mut Rng, length: usize) -> usize {
    rng.pick(&[
        0,
        1,
        length / 2,
        2 * length,
        length.saturating_sub(1),
        length + 1,
        length.saturating_sub(WORD),
        length + WORD,
        length / WORD,
        length.min(64) * WORD,
    ])
}
