use super::streams::used;
use crate::call::Call;
use crate::numbers::{any_ev_count, edge, instead_of, lent_evs, settings};
use crate::planning::planning;
use crate::session::Session;
use crate::shape::Shape;
use crate::spoil::spoil_length;
use crate::tally::Tally;
use crate::turns::choice;
use model::{Rng, Settings};

pub fn run(seed: u64, tally: &mut Tally) -> Result<(), String> {
    let mut rng = Rng::new(seed);
    for _ in 0..50 {
        one(&mut rng, tally)?;
    }
    Ok(())
}

fn one(rng: &mut Rng, tally: &mut Tally) -> Result<(), String> {
    let shape = Shape::any(rng);
    let (call, asked) = call(rng);
    let evs = lent_evs(rng, asked);
    let mut start = used(rng, shape, evs);
    if rng.one_in(3) {
        spoil_length(rng, &mut start);
    }
    let mut session = Session::new(start);
    tally.cases += 1;
    session.call(call, tally)?;
    // The fresh state, or what was refused, in use.
    for _ in 0..3 {
        let time = rng.below(3);
        // The last flow, the first behind it, or any.
        let any = rng.below(10) as usize;
        let flow = rng.pick(&[shape.flows - 1, shape.flows, any]);
        session.call(Call::Path { time, flow }, tally)?;
        let bytes = rng.between(1, 100);
        session.call(Call::NewData { time, flow, bytes }, tally)?;
        session.call(choice(rng), tally)?;
        session.call(planning(rng, time, 41), tally)?;
    }
    Ok(())
}

/// Settings of which none, one or all are spoilt, or are too few or too many; and their EV count.
fn call(rng: &mut Rng) -> (Call, u32) {
    let good = settings(rng, true);
    let mut numbers = good.numbers();
    let mut evs = good.ev_count;
    match rng.below(10) {
        0..=4 => beyond(rng, &mut numbers),
        5 => numbers.fill_with(|| edge(rng)),
        6 | 7 => evs = any_ev_count(rng),
        _ => {}
    }
    let spoilt = Settings::from_numbers(numbers, good.first_psn, good.quick_adapt_off);
    let mut call = Call::set_up(&spoilt.with_evs(evs));
    if let Call::SetUp { settings, .. } = &mut call {
        if good.numbers() == numbers && rng.one_in(4) {
            settings.resize(rng.pick(&[0, 1, 11, 13, 24]), 1_024);
        }
    }
    (call, evs)
}

/// One number at an edge of its range or beyond it.
fn beyond(rng: &mut Rng, numbers: &mut [u64; 12]) {
    let i = rng.below(12) as usize;
    let range = Settings::ranges(numbers[0])[i].clone();
    let strange = instead_of(rng, numbers[i]);
    numbers[i] = rng.pick(&[
        *range.start(),
        range.start().wrapping_sub(1),
        *range.end(),
        range.end() + 1,
        strange,
    ]);
}
