//! Calls from outside, which test number 2 in full. There is one flow where nothing else is said.

use crate::logs;
use crate::sides::{assert_alike, set_up, set_up_model, set_up_ours, Model};
use crate::table::Table;
use crate::timing::{race, Clock, Times};
use differential::{answer_of, turn_of, Beside, Call};
use model::bounds::{EVS_MAX, EVS_USUAL};
use model::{number_two, Event, NewData, Path, Send, Settings};
use nscc::{Context, TURN};
use std::hint::black_box;

const ROUNDS: usize = 9;
const TEST_ROUNDS: usize = 200;
/// The refusal of a time before the clock.
const TIME: u64 = 3;

/// (b) A mix of all events. With more EVs there are more times to test, and the events are the same:
/// those that name an EV name one of the first 256.
pub fn events(table: &mut Table) {
    for (capacity, many) in [(64, 100_000), (1_024, 30_000)] {
        let (settings, events) = logs::traffic_for(capacity, many);
        for evs in [EVS_USUAL, EVS_MAX] {
            let times = calls(&settings.with_evs(evs), &events, capacity);
            let what = format!("(b) a call, traffic, {capacity} slots, {evs} EVs");
            table.add(what, times);
        }
    }
}

/// (e) The same ACKs in the smallest and in the largest ring.
pub fn acks(table: &mut Table) {
    for (capacity, many) in [(64, 100_000), (4_096, 5_000)] {
        let (settings, events) = logs::apart(&logs::repeated_ack(many));
        let times = calls(&settings, &events, capacity);
        table.add(
            format!("(e) a call of an ACK that delivers nothing new, {capacity} slots"),
            times,
        );
    }
}

/// The time of a call.
fn calls(settings: &Settings, events: &[Event], capacity: usize) -> Times {
    let calls: Vec<Call> = events.iter().map(Call::of).collect();
    let evs = settings.ev_count as usize;
    let mut context = Context::with_evs(1, capacity, evs);
    let mut model = Model::with_evs(1, capacity, evs);
    set_up(&mut context, &mut model, settings);
    take(&mut context, &mut model, events);
    assert_alike(&context, &model);
    race(
        ROUNDS,
        calls.len(),
        |clock| {
            set_up_ours(&mut context, settings);
            let mut lent = context.lend();
            in_laps(clock, &calls, |call| call.ask(&mut lent, Beside::default()));
        },
        |clock| {
            set_up_model(&mut model, settings);
            let Model { state, memory } = &mut model;
            let mut lent = memory.lend();
            in_laps(clock, events, |event| {
                answer_of(state.take(&mut lent, event))
            });
        },
    )
}

/// Both sides take the events and must answer alike; the last answer.
pub fn take(context: &mut Context, model: &mut Model, events: &[Event]) -> u64 {
    let mut last = 0;
    for event in events {
        let outcome = model.state.take(&mut model.memory.lend(), event);
        last = Call::of(event).ask(&mut context.lend(), Beside::default());
        assert_eq!(last, answer_of(outcome), "{event:?}");
    }
    last
}

fn in_laps<T>(clock: &mut Clock, calls: &[T], mut ask: impl FnMut(&T) -> u64) {
    for lap in calls.chunks(500) {
        clock.lap(|| {
            for call in lap {
                black_box(ask(call));
            }
        });
    }
}

/// (c) The full test: ours is a path choice that time refuses, which does little else. Eight flows of
/// 512 slots have as many slots as one of 4,096.
pub fn full_test(table: &mut Table) {
    for (name, quarters) in [("full", 4), ("half full", 2), ("empty", 0)] {
        for (flows, capacity) in [(1, 64), (1, 1_024), (1, 4_096), (8, 512)] {
            let times = test_of(flows, capacity, capacity / 4 * quarters);
            let slots = match flows {
                1 => format!("{capacity} slots, ring"),
                _ => format!("{flows} flows of {capacity} slots, rings"),
            };
            table.add(format!("(c) number 2's test, {slots} {name}"), times);
        }
    }
}

fn test_of(flows: usize, capacity: usize, packets: usize) -> Times {
    let (mut context, mut model) = filled(flows, capacity, packets);
    let early = [Event::from(Path { time: 0, flow: 0 })];
    assert_eq!(take(&mut context, &mut model, &early), TIME);
    assert_alike(&context, &model);
    let many = 160_000 / (flows * capacity);
    let mut lent = context.lend();
    let Model { state, memory } = &mut model;
    let models = memory.lend();
    race(
        TEST_ROUNDS,
        many,
        |clock| clock.lap(|| (0..many).all(|_| lent.path(black_box(0), 0) == TIME)),
        |clock| clock.lap(|| (0..many).all(|_| number_two(black_box(state), black_box(&models)))),
    )
}

/// (b) Choices. Half of each ring is full, and there is backlog for more: every flow is ready.
pub fn choices(table: &mut Table) {
    for (name, flows, capacity) in [
        ("8 flows of 64 slots, all ready", 8, 64),
        ("1024 slots, ready", 1, 1_024),
    ] {
        let times = choices_of(flows, capacity);
        table.add(format!("(b) a choice, {name}"), times);
    }
}

fn choices_of(flows: usize, capacity: usize) -> Times {
    let (mut context, mut model) = filled(flows, capacity, capacity / 2);
    let many = 160_000 / (flows * capacity);
    let mut turn = [0; TURN];
    for _ in 0..=flows {
        let named = model.state.choose(&model.memory.lend());
        assert_eq!(context.lend().choose(&mut turn), 0);
        assert_eq!(turn, turn_of(named.expect("a sound context")));
        assert_eq!(turn[0], 1, "nobody is ready");
    }
    assert_alike(&context, &model);
    let mut lent = context.lend();
    let Model { state, memory } = &mut model;
    let models = memory.lend();
    race(
        TEST_ROUNDS,
        many,
        |clock| clock.lap(|| (0..many).all(|_| lent.choose(black_box(&mut turn)) == 0)),
        |clock| clock.lap(|| (0..many).all(|_| state.choose(black_box(&models)).is_ok())),
    )
}

/// Both sides with so many packets flying on each flow, at a clock of 1.
pub fn filled(flows: usize, capacity: usize, packets: usize) -> (Context, Model) {
    let mut numbers = model::gen::E;
    numbers[1] = 1 << 26;
    let settings = Settings::from_numbers(numbers, 0, false);
    let mut context = Context::empty(flows, capacity);
    let mut model = Model::empty(flows, capacity);
    set_up(&mut context, &mut model, &settings);
    for flow in 0..flows {
        take(&mut context, &mut model, &sends(flow as u64, packets));
    }
    (context, model)
}

/// New data of a flow, and so many packets of it.
fn sends(flow: u64, packets: usize) -> Vec<Event> {
    let (time, size) = (1, 1024);
    let bytes = 1 + u64::from(size) * packets as u64;
    let mut events = vec![Event::from(NewData { time, flow, bytes })];
    events.extend((0..packets as u32).map(|psn| {
        Event::from(Send {
            time,
            flow,
            size,
            psn,
            resend: false,
        })
    }));
    events
}
