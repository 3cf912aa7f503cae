//! Replays of a log that comes in chunks. Both sides test number 2 once a chunk.

use crate::logs;
use crate::sides::{assert_alike, Model, CAPACITY};
use crate::table::Table;
use crate::timing::{race, Clock, Times};
use differential::answer_of;
use model::{Chunk, Outcome};
use nscc::{Context, Part};

const RECORDS: usize = 250_000;
const ROUNDS: usize = 15;
/// Bytes of a lap, about.
const LAP: usize = 1 << 18;

/// (a) Chunks of a packet's length, and longer ones.
pub fn lengths(table: &mut Table) {
    let log = logs::traffic(RECORDS);
    for (name, length) in [("1,500 bytes", 1_500), ("64 KiB", 1 << 16)] {
        let times = replay(&log, length);
        table.add(
            format!("(a) a record replayed, traffic, chunks of {name}"),
            times,
        );
    }
}

/// The time of a record.
fn replay(log: &[u8], length: usize) -> Times {
    let mut context = Context::empty(1, CAPACITY);
    let mut model = Model::empty(1, CAPACITY);
    let mut ours = vec![0; logs::count(log)];
    let mut models = vec![Outcome::default(); ours.len()];
    let records = ours.len();

    // Once, to compare.
    let clock = &mut Clock::default();
    replay_ours(clock, &mut context, log, length, &mut ours);
    replay_model(clock, &mut model, log, length, &mut models);
    let alike = models.iter().copied().map(answer_of).eq(ours.clone());
    assert!(alike, "the answers differ");
    assert_alike(&context, &model);

    race(
        ROUNDS,
        records,
        |clock| replay_ours(clock, &mut context, log, length, &mut ours),
        |clock| replay_model(clock, &mut model, log, length, &mut models),
    )
}

fn replay_ours(
    clock: &mut Clock,
    context: &mut Context,
    log: &[u8],
    length: usize,
    answers: &mut [u64],
) {
    let mut part = Part::default();
    in_laps(clock, log, length, answers, |bytes, answers| {
        let given = context.chunk(&mut part, bytes, false, answers);
        (given.expect("sound memory"), part.taken())
    });
}

fn replay_model(
    clock: &mut Clock,
    model: &mut Model,
    log: &[u8],
    length: usize,
    answers: &mut [Outcome],
) {
    let mut part = model::Part::default();
    let Model { state, memory } = model;
    let mut lent = memory.lend();
    in_laps(clock, log, length, answers, |bytes, answers| {
        let chunk = Chunk {
            bytes,
            ended: false,
        };
        let taken = part.take(state, &mut lent, chunk, answers);
        let taken = taken.expect("sound memory");
        (taken.answered, taken.bytes)
    });
}

/// Hands in the log in chunks of so many bytes, each with room for all answers that are left.
fn in_laps<T>(
    clock: &mut Clock,
    log: &[u8],
    length: usize,
    answers: &mut [T],
    mut take: impl FnMut(&[u8], &mut [T]) -> (usize, usize),
) {
    let mut answered = 0;
    for lap in log.chunks(LAP / length * length) {
        clock.lap(|| {
            for chunk in lap.chunks(length) {
                let (given, taken) = take(chunk, &mut answers[answered..]);
                assert_eq!(taken, chunk.len());
                answered += given;
            }
        });
    }
    assert_eq!(answered, answers.len());
}
