//! The library's replay of a whole log, timed from setting up to the last answer. What is lent to it
//! is read from the log.

use crate::sides::CAPACITY;
use crate::sum::Sum;
use differential::Call;
use model::bounds::FLOWS_MAX;
use model::replay::evs_lent;
use model::Reader;
use nscc::{Context, Place};
use std::hint::black_box;
use std::iter;
use std::time::{Duration, Instant};

/// How many answers a call has room for.
const ROOM: usize = 10_000;
const ROUNDS: usize = 30;

/// What a replay of a log answered, and its time.
#[derive(Clone, Copy, Debug, PartialEq)]
pub struct Measured {
    /// As many as there are answers: that of a record at which replay stops is one of them.
    pub records: u64,
    /// Of a record.
    pub nanoseconds: f64,
    /// Of all answers.
    pub sum: u64,
}

impl Measured {
    /// The same with the shorter time of both.
    pub fn best(self, other: Measured) -> Measured {
        let nanoseconds = self.nanoseconds.min(other.nanoseconds);
        Measured {
            nanoseconds,
            ..self
        }
    }
}

/// What is lent to the replay of a log.
#[derive(Clone, Copy, Debug, PartialEq, Eq)]
struct Needs {
    flows: usize,
    evs: usize,
}

impl Needs {
    /// Where a log asks for more than there can be, the library refuses that.
    fn of(log: &[u8]) -> Needs {
        Needs {
            flows: flows_named(log),
            evs: evs_lent(log),
        }
    }
}

/// One more than the highest flow that a record names, and at most as many as a table can have.
fn flows_named(log: &[u8]) -> usize {
    let mut reader = Reader::new(log);
    // Replay stops at a malformed record, so nothing behind it counts.
    let records = iter::from_fn(|| reader.next_record().ok().flatten());
    let events = records.filter_map(|record| record.event());
    let highest = events.filter_map(|event| Call::of(&event).flow()).max();
    FLOWS_MAX.min(highest.unwrap_or(0) + 1)
}

/// A log with what its replay is lent.
pub struct Whole<'a> {
    log: &'a [u8],
    context: Context,
    answers: Vec<u64>,
}

impl<'a> Whole<'a> {
    pub fn new(log: &'a [u8]) -> Whole<'a> {
        let Needs { flows, evs } = Needs::of(log);
        Whole {
            log,
            context: Context::with_evs(flows, CAPACITY, evs),
            answers: vec![0; ROOM],
        }
    }

    /// The sum is of a replay before the timed ones.
    pub fn measure(&mut self) -> Measured {
        let (records, sum) = self.summed();
        let time = (0..ROUNDS).map(|_| self.timed()).min();
        let time = time.unwrap_or_default().as_nanos() as f64;
        Measured {
            records,
            nanoseconds: time / records.max(1) as f64,
            sum,
        }
    }

    /// How many answers there are, and their sum.
    fn summed(&mut self) -> (u64, u64) {
        let mut sum = Sum::default();
        let records = self.replay(|answers| sum.add(answers));
        (records, sum.number())
    }

    fn timed(&mut self) -> Duration {
        let start = Instant::now();
        black_box(self.replay(|_| {}));
        start.elapsed()
    }

    /// Replays as far as the log goes; how many answers there are.
    fn replay(&mut self, mut give: impl FnMut(&[u64])) -> u64 {
        let mut place = Place::default();
        let mut records = 0;
        loop {
            let given = self.context.replay(&mut place, self.log, &mut self.answers);
            let given = given.expect("sound memory");
            if given == 0 {
                return records;
            }
            give(&self.answers[..given]);
            records += given as u64;
        }
    }
}

#[cfg(test)]
mod tests {
    use super::{Needs, Whole, CAPACITY, ROOM};
    use crate::logs;
    use crate::sum::Sum;
    use differential::answer_of;
    use model::log::append;
    use model::replay::Replay;
    use model::{gen, Memory, Outcome, Record};

    const USUAL: Needs = Needs { flows: 1, evs: 256 };

    fn settings(ev_count: u32) -> Record {
        Record::Settings {
            numbers: gen::E,
            first_psn: 0,
            flags: 0,
            ev_count,
        }
    }

    fn path(flow: Option<u8>) -> Record {
        Record::Path { time: 0, flow }
    }

    fn log_of(records: &[Record]) -> Vec<u8> {
        let mut log = Vec::new();
        for record in records {
            append(record, &mut log).expect("every field fits");
        }
        log
    }

    fn needs(records: &[Record]) -> Needs {
        Needs::of(&log_of(records))
    }

    #[test]
    fn nothing_named_is_one_flow_and_256_evs() {
        assert_eq!(Needs::of(&[]), USUAL);
        assert_eq!(Needs::of(&[7]), USUAL);
        assert_eq!(needs(&[settings(256)]), USUAL);
        assert_eq!(needs(&[settings(256), path(None), path(Some(0))]), USUAL);
    }

    #[test]
    fn evs_are_those_of_a_whole_settings_record() {
        let wide = log_of(&[settings(4_096)]);
        assert_eq!(wide.len(), 61);
        assert_eq!(Needs::of(&wide).evs, 4_096);
        assert_eq!(Needs::of(&wide[..60]), USUAL);
        assert_eq!(Needs::of(&wide[..3]), USUAL);
        assert_eq!(needs(&[settings(512)]).evs, 512);
        // One that is not the first sets nothing up.
        assert_eq!(needs(&[path(None), settings(4_096)]), USUAL);
    }

    #[test]
    fn evs_that_are_not_allowed_are_256() {
        for ev_count in [0, 1, 128, 300, 4_095, 8_192, 1 << 31, u32::MAX] {
            assert_eq!(needs(&[settings(ev_count)]), USUAL, "{ev_count}");
        }
    }

    #[test]
    fn flows_are_one_more_than_the_highest_named() {
        let flows = |named: &[u8]| {
            let mut records = vec![settings(256), path(None)];
            records.extend(named.iter().map(|&flow| path(Some(flow))));
            needs(&records).flows
        };
        assert_eq!(flows(&[1]), 2);
        assert_eq!(flows(&[2, 6, 0]), 7);
        assert_eq!(flows(&[7]), 8);
        assert_eq!(flows(&[8]), 8);
        assert_eq!(flows(&[255, 3]), 8);
    }

    #[test]
    fn flows_behind_a_malformed_record_do_not_count() {
        let mut log = log_of(&[settings(256), path(Some(3))]);
        log.extend([0; 4]);
        log.extend(log_of(&[path(Some(5))]));
        assert_eq!(Needs::of(&log).flows, 4);
    }

    /// What the model answers as far as the log goes: how many answers, and their sum.
    fn models(log: &[u8]) -> (u64, u64) {
        let Needs { flows, evs } = Needs::of(log);
        let mut memory = Memory::with_flows(flows, CAPACITY, evs);
        let mut replay = Replay::new(log, memory.lend());
        let mut answers = Vec::new();
        loop {
            match replay.step() {
                Ok(None) => break,
                Ok(Some(outcome)) => answers.push(answer_of(outcome)),
                Err(number) => {
                    answers.push(answer_of(Outcome::from(number)));
                    break;
                }
            }
        }
        let mut sum = Sum::default();
        sum.add(&answers);
        (answers.len() as u64, sum.number())
    }

    fn assert_models(log: &[u8], records: usize) {
        let found = Whole::new(log).summed();
        assert_eq!(found, models(log));
        assert_eq!(found.0, records as u64);
    }

    #[test]
    fn every_answer_is_the_models() {
        let many = 2 * ROOM + 5_000;
        assert_models(&gen::traffic(1, many), many);
        assert_models(&gen::traffic(1, ROOM), ROOM);
        assert_models(&gen::flows(1, many), many);
        let eight = logs::mixed(many);
        assert_eq!(Needs::of(&eight), Needs { flows: 8, evs: 256 });
        assert_models(&eight, many);
        for seed in 0..4 {
            assert_models(&gen::wide(seed, 3_000), 3_000);
        }
    }

    #[test]
    fn a_log_that_stops_early_is_answered_up_to_there() {
        assert_models(&[], 0);
        assert_models(&[7], 1);
        assert_models(&log_of(&[settings(300), path(None)]), 1);
        assert_models(&log_of(&[settings(256), path(None), settings(256)]), 3);
        let log = gen::traffic(1, 100);
        assert_models(&log[..log.len() - 1], 100);
        assert_models(&log_of(&[settings(256), path(Some(9)), path(Some(2))]), 3);
    }
}
