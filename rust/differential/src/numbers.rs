//! Numbers at which rules change.

use model::bounds::{EVS_MAX, EVS_MIN};
use model::{Rng, Settings, State};

/// The exponents of 01's bounds.
const BOUNDS: [u32; 12] = [8, 10, 14, 20, 24, 26, 30, 32, 40, 48, 49, 60];

/// A number at some edge, or any.
pub fn edge(rng: &mut Rng) -> u64 {
    let any = rng.next_u64();
    let power = 1 << rng.below(64);
    let bound = 1 << rng.pick(&BOUNDS);
    let near = rng.pick(&[power, bound, bound]);
    rng.pick(&[0, 1, 2, near - 1, near, near + 1, u64::MAX, any])
}

/// Another number in the place of `number`: a neighbour, one that a narrower word would take for
/// it, or any edge.
pub fn instead_of(rng: &mut Rng, number: u64) -> u64 {
    let bit = 1 << rng.below(64);
    let wider = 1 << rng.pick(&[8, 16, 24, 32]);
    match rng.below(6) {
        0 => number.wrapping_add(1),
        1 => number.wrapping_sub(1),
        2 => number.wrapping_add(wider),
        3 => number ^ bit,
        _ => edge(rng),
    }
}

/// A number from `low` to `high`, often at or beside one of them.
pub fn within(rng: &mut Rng, low: u64, high: u64) -> u64 {
    let any = rng.between(low, high);
    let beside_low = (low + 1).min(high);
    let beside_high = high.saturating_sub(1).max(low);
    rng.pick(&[low, beside_low, any, any, beside_high, high])
}

/// `number` or a neighbour of it.
pub fn beside(rng: &mut Rng, number: u64) -> u64 {
    rng.pick(&[number.saturating_sub(1), number, number + 1])
}

/// The least base whose max_wnd is not below cwnd; 1 where every base's is, or where cwnd is spoilt.
pub fn least_base(state: &State) -> u64 {
    let settings = &state.settings;
    let above_mtu = settings.mtu < state.cwnd && state.cwnd <= settings.max_wnd;
    if settings.in_range() && above_mtu {
        (state.cwnd * settings.config_base_rtt).div_ceil(settings.max_wnd)
    } else {
        1
    }
}

/// A first PSN: 0, anywhere, or so near 2^32 that it soon wraps.
pub fn first_psn(rng: &mut Rng) -> u32 {
    match rng.below(3) {
        0 => 0,
        1 => rng.next_u32(),
        _ => u32::MAX - rng.below(200) as u32,
    }
}

/// Settings in their ranges: E, or often at an edge.
pub fn settings(rng: &mut Rng, edges: bool) -> Settings {
    let mut numbers = model::gen::E;
    for i in 0..numbers.len() {
        let range = Settings::ranges(numbers[0])[i].clone();
        let usual = numbers[i].max(*range.start());
        let unusual = edges && rng.one_in(3);
        numbers[i] = if unusual {
            within(rng, *range.start(), *range.end())
        } else {
            usual
        };
    }
    let settings = Settings::from_numbers(numbers, first_psn(rng), rng.one_in(4));
    settings.with_evs(ev_count(rng))
}

/// An EV count that is allowed. Few EVs are faster to compare.
pub fn ev_count(rng: &mut Rng) -> u32 {
    rng.pick(&[256, 256, 256, 256, 512, 512, 1_024, 2_048, 4_096])
}

/// An EV count that is allowed, beside one that is, or any.
pub fn any_ev_count(rng: &mut Rng) -> u32 {
    let good = ev_count(rng);
    let (any, at_edge) = (rng.next_u32(), edge(rng) as u32);
    rng.pick(&[
        0,
        1,
        EVS_MIN / 2,
        EVS_MIN - 1,
        EVS_MIN,
        EVS_MAX,
        EVS_MAX + 1,
        2 * EVS_MAX,
        u32::MAX,
        good,
        good - 1,
        good + 1,
        good + good / 2,
        good << 16,
        at_edge,
        any,
    ])
}

/// How many EV times to lend where so many are asked for: mostly as many.
pub fn lent_evs(rng: &mut Rng, asked: u32) -> usize {
    let other = any_ev_count(rng);
    let evs = rng.pick(&[asked, asked, asked, asked, asked, asked, other]);
    evs.min(2 * EVS_MAX) as usize
}
