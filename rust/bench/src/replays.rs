//! Replays without text. The model's never tests number 2: setting up gives what it asks.

use crate::logs;
use crate::sides::{assert_alike, Model, CAPACITY};
use crate::table::Table;
use crate::timing::{race, Clock, Times};
use differential::answer_of;
use model::bounds::FLOWS_MAX;
use model::replay::{self, Replay};
use nscc::{Context, Place};

const RECORDS: usize = 1_000_000;
const ROUNDS: usize = 15;
/// Records of a lap, and how many answers a call of the library has room for where nothing else is
/// said. It tests number 2 once a call.
const LAP: usize = 10_000;

/// The flows of a context, and the slots of each.
type Shape = (usize, usize);

/// One flow.
const ONE: Shape = (1, CAPACITY);

/// (a) Logs of several kinds.
pub fn kinds(table: &mut Table) {
    for (kind, make) in logs::KINDS {
        let times = replay(ROUNDS, &make(RECORDS), ONE, LAP);
        table.add(format!("(a) a record replayed, {kind}"), times);
    }
}

/// (a) Traffic of eight flows. Then the program's eight flows, and one flow with as many slots in
/// all and the same events.
pub fn flows(table: &mut Table) {
    let times = replay(ROUNDS, &logs::mixed(RECORDS), (FLOWS_MAX, CAPACITY), LAP);
    table.add("(a) a record replayed, traffic of eight flows", times);
    let program = (replay::FLOWS, replay::CAPACITY);
    let slots = program.0 * program.1;
    for (name, shape) in [("one flow", (1, slots)), ("eight flows", program)] {
        let times = replay(ROUNDS, &logs::dealt(RECORDS, shape.0), shape, LAP);
        table.add(
            format!("(a) a record replayed, bulk dealt to {name}, {slots} slots in all"),
            times,
        );
    }
}

/// (a) Path choices that take the cursor, and such that have to count and search.
pub fn paths(table: &mut Table) {
    for (which, avoided) in [("no", false), ("every second", true)] {
        let log = logs::path_choices(RECORDS / 4, avoided);
        let times = replay(ROUNDS, &log, ONE, LAP);
        table.add(
            format!("(a) a path choice replayed, {which} EV avoided"),
            times,
        );
    }
}

/// (a) Room for fewer answers, so that number 2 is tested more often.
pub fn rooms(table: &mut Table) {
    let log = logs::traffic(RECORDS / 4);
    for room in [1_000, 50] {
        let times = replay(ROUNDS, &log, ONE, room);
        table.add(
            format!("(a) a record replayed, traffic, {room} answers a call"),
            times,
        );
    }
}

/// (d) The length of a log.
pub fn lengths(table: &mut Table) {
    for (name, records, rounds) in [("10^4", 10_000, 200), ("10^6", RECORDS, ROUNDS)] {
        let times = replay(rounds, &logs::traffic(records), ONE, LAP);
        table.add(
            format!("(d) a record replayed, log of {name} records"),
            times,
        );
    }
}

/// (e) The same ACKs in the smallest and in the largest ring.
pub fn acks(table: &mut Table) {
    const MANY: u32 = 100_000;
    let repeated = logs::repeated_ack(2 * MANY);
    let pairs = logs::ack_and_send(MANY);
    for capacity in [64, 4_096] {
        let times = replay(ROUNDS, &repeated, (1, capacity), LAP);
        table.add(
            format!("(e) an ACK replayed that delivers nothing new, {capacity} slots"),
            times,
        );
        let times = replay(ROUNDS, &pairs, (1, capacity), LAP);
        table.add(
            format!("(e) an ACK replayed that delivers a packet, or a send, {capacity} slots"),
            times,
        );
    }
}

/// The time of a record. `room` is how many answers a call of the library has room for.
fn replay(rounds: usize, log: &[u8], (flows, capacity): Shape, room: usize) -> Times {
    let mut context = Context::empty(flows, capacity);
    let mut model = Model::empty(flows, capacity);
    let mut ours = vec![0; logs::count(log)];
    let mut models = ours.clone();
    let records = ours.len();

    // Once, to compare.
    replay_ours(&mut Clock::default(), &mut context, log, &mut ours, room);
    replay_model(&mut Clock::default(), &mut model, log, &mut models, room);
    assert!(ours == models, "the answers differ");
    assert_alike(&context, &model);

    race(
        rounds,
        records,
        |clock| replay_ours(clock, &mut context, log, &mut ours, room),
        |clock| replay_model(clock, &mut model, log, &mut models, room),
    )
}

fn replay_ours(
    clock: &mut Clock,
    context: &mut Context,
    log: &[u8],
    answers: &mut [u64],
    room: usize,
) {
    let mut place = Place::default();
    in_laps(clock, answers, room, |part| {
        let given = context.replay(&mut place, log, part);
        given.expect("sound memory")
    });
}

fn replay_model(
    clock: &mut Clock,
    model: &mut Model,
    log: &[u8],
    answers: &mut [u64],
    room: usize,
) {
    let mut replay = Replay::new(log, model.memory.lend());
    in_laps(clock, answers, room, |part| {
        for answer in part.iter_mut() {
            let outcome = replay.step().expect("a sound log");
            *answer = answer_of(outcome.expect("a record"));
        }
        part.len()
    });
    model.state = replay.state;
}

/// Has all answers given, so many at a time.
fn in_laps(
    clock: &mut Clock,
    answers: &mut [u64],
    room: usize,
    mut give: impl FnMut(&mut [u64]) -> usize,
) {
    for lap in answers.chunks_mut(LAP) {
        clock.lap(|| {
            for part in lap.chunks_mut(room) {
                assert_eq!(give(part), part.len());
            }
        });
    }
}
