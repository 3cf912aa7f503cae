use super::streams::used;
use crate::call::answer_of;
use crate::logs::{damage, evs_for, generated, long, pieces, LONG_EVERY};
use crate::numbers::edge;
use crate::shape::Shape;
use crate::shorten::{prefix, thin};
use crate::sides::{Model, Ours};
use crate::spoil::{spoil, spoil_length};
use crate::tally::Tally;
use crate::turns::move_turn;
use model::replay::Replay;
use model::{Outcome, Record, Rng};
use nscc::{PlaceWord, PLACE, WORDS};
use std::fmt::Write;

/// What stands in the answers' room before a call.
const UNANSWERED: u64 = u64::MAX;
const UNSOUND: u32 = 2;
const MALFORMED: u8 = 12;

pub fn run(seed: u64, tally: &mut Tally) -> Result<(), String> {
    let mut rng = Rng::new(seed);
    let (log, shape) = if seed.is_multiple_of(LONG_EVERY) {
        (long(seed), Shape::PROGRAM)
    } else {
        let log = generated(&mut rng, 1_000);
        let damaged = damage(&mut rng, &log);
        (
            if rng.one_in(3) { log } else { damaged },
            Shape::for_log(&mut rng),
        )
    };
    let evs = evs_for(&mut rng, &log);
    let start = used_or_spoilt(&mut rng, shape, evs);
    let rooms = rng.next_u64();
    tally.cases += 1;
    compare(&log, &start, rooms, tally).map_err(|difference| {
        let fails = |log: &[Vec<u8>]| {
            let replayed = compare(&log.concat(), &start, rooms, &mut Tally::default());
            replayed.is_err()
        };
        report(&log, &difference, fails)
    })
}

/// Memory that was used, seldom with lengths that the first record has to refuse.
pub fn used_or_spoilt(rng: &mut Rng, shape: Shape, evs: usize) -> Model {
    let mut start = used(rng, shape, evs);
    if rng.one_in(16) {
        spoil_length(rng, &mut start);
        // The state's words are the call's own matter.
        start.words.resize(WORDS, 0);
    }
    start
}

/// The shortest prefix of the log that fails, then without the records that it does not need.
pub fn report(log: &[u8], difference: &str, fails: impl Fn(&[Vec<u8>]) -> bool) -> String {
    let all = pieces(log);
    let first = prefix(&all, &fails);
    let few = thin(first, &fails);
    let mut report = format!(
        "{difference}\nprefix of {} records, thinned to {}:\n",
        first.len(),
        few.len()
    );
    for piece in &few {
        let record: Option<Record> = model::parse(piece, 0).ok().flatten().map(|(r, _)| r);
        let bytes: String = piece.iter().map(|byte| format!("{byte:02x}")).collect();
        // Writing to a String does not fail.
        let _ = match record {
            Some(record) => writeln!(report, "{bytes} {record:?}"),
            None => writeln!(report, "{bytes}"),
        };
    }
    report
}

/// Replays the log in batches; between them, spoilt states and places are tried on the side, and
/// the turn moves, which a replay leaves where it is.
fn compare(log: &[u8], start: &Model, rooms: u64, tally: &mut Tally) -> Result<(), String> {
    let mut rng = Rng::new(rooms);
    // A long log is handed in a few times only.
    let short = log.len() < 1 << 20;
    let most = rng.pick(if short { &[1, 4, 64, 400] } else { &[1 << 16] });
    let mut batches = Batches::new(log, start.clone());
    loop {
        if rng.one_in(8) {
            batches.on_the_side(&mut rng, tally)?;
        }
        if rng.one_in(8) {
            move_turn(&mut rng, &mut batches.model);
            batches.ours = Ours::of(&batches.model);
        }
        let room = rng.between(0, most) as usize;
        let given = batches.next(room, tally)?;
        if given < room {
            // Once more: nothing is left.
            return batches.next(1, tally).map(|_| ());
        }
    }
}

/// A replay under way. Both sides have the same place: it is compared after every batch.
struct Batches<'a> {
    log: &'a [u8],
    place: Vec<u64>,
    ours: Ours,
    model: Model,
}

/// What the model answers to a batch, and to each of its records.
struct Expected {
    number: u32,
    outcomes: Vec<Outcome>,
}

impl<'a> Batches<'a> {
    fn new(log: &'a [u8], model: Model) -> Batches<'a> {
        Batches {
            log,
            place: vec![0; PLACE],
            ours: Ours::of(&model),
            model,
        }
    }

    fn at(&self, word: PlaceWord) -> u64 {
        self.place[word as usize]
    }

    /// Both sides replay a batch, and all is compared; how many answers were given.
    fn next(&mut self, room: usize, tally: &mut Tally) -> Result<usize, String> {
        let mut place = self.place.clone();
        let mut answers = vec![UNANSWERED; room];
        let number = self.ours.lend().replay(&mut place, self.log, &mut answers);
        let expected = self.expect(room);
        if number != expected.number {
            return Err(format!("answered {number}, the model {}", expected.number));
        }
        let many = expected.outcomes.len();
        let (told, untold) = answers.split_at(many);
        let models = expected.outcomes.iter().map(|&outcome| answer_of(outcome));
        let mut pairs = told.iter().zip(models).enumerate();
        if let Some((i, (ours, model))) = pairs.find(|(_, (&ours, model))| ours != *model) {
            let done = self.at(PlaceWord::Done);
            return Err(format!(
                "answer {i} of {many}, {done} records done: {ours:#x}, the model's {model:#x}"
            ));
        }
        if untold.iter().any(|&answer| answer != UNANSWERED) {
            return Err(format!("answers behind the {many} given were touched"));
        }
        if place != self.place {
            return Err(format!("place {place:?}, the model's {:?}", self.place));
        }
        self.ours.compare(&self.model)?;
        for outcome in expected.outcomes {
            tally.count(outcome);
        }
        Ok(many)
    }

    /// The model replays a batch. Number 2 is tested once, where there is a context.
    fn expect(&mut self, room: usize) -> Expected {
        let mut expected = Expected {
            number: 0,
            outcomes: Vec::new(),
        };
        if self.place.len() != PLACE || self.model.words.len() != WORDS {
            expected.number = UNSOUND;
            return expected;
        }
        let stopped = self.at(PlaceWord::Stopped) == 1;
        let set_up = self.at(PlaceWord::Done) > 0;
        if !stopped && set_up && !self.model.sound() {
            expected.number = UNSOUND;
            return expected;
        }
        if !stopped {
            self.step_through(room, &mut expected.outcomes);
        }
        self.place[PlaceWord::Answered as usize] = expected.outcomes.len() as u64;
        expected
    }

    fn step_through(&mut self, room: usize, outcomes: &mut Vec<Outcome>) {
        let [mut at, mut done, mut stopped] = [self.place[0], self.place[1], self.place[2]];
        let start = at;
        let rest = &self.log[start as usize..];
        let mut replay = match self.model.lend() {
            Some((state, lent)) if done > 0 => Replay::resume(rest, state, lent),
            _ => Replay::new(rest, self.model.lend_new().1),
        };
        while outcomes.len() < room && stopped == 0 {
            match replay.step() {
                Ok(None) => break,
                Ok(Some(outcome)) => {
                    outcomes.push(outcome);
                    done += 1;
                    at = start + replay.offset() as u64;
                }
                Err(number) => {
                    outcomes.push(number.into());
                    stopped = 1;
                    // A record that is refused with 12 is not done; refused settings are.
                    if number != MALFORMED {
                        done += 1;
                        at = start + replay.offset() as u64;
                    }
                }
            }
        }
        let state = replay.state;
        self.place[..3].copy_from_slice(&[at, done, stopped]);
        // Before record 1 there is no state, and without an answer none is stored.
        if done > 0 && !outcomes.is_empty() {
            self.model.store(&state);
        }
    }

    /// A copy of the replay goes on with something spoilt.
    fn on_the_side(&self, rng: &mut Rng, tally: &mut Tally) -> Result<(), String> {
        let mut model = self.model.clone();
        let mut place = self.place.clone();
        match rng.below(6) {
            0 => place.resize(rng.pick(&[0, 1, PLACE - 1, PLACE + 1]), 0),
            1 => place[PlaceWord::Stopped as usize] = 1,
            2 => {
                let end = self.log.len() as u64;
                place[PlaceWord::At as usize] = rng.between(self.at(PlaceWord::At), end);
            }
            3 => return self.strange_place(rng),
            _ => spoil(rng, &mut model),
        }
        let mut side = Batches {
            log: self.log,
            place,
            ours: Ours::of(&model),
            model,
        };
        let room = rng.below(20) as usize;
        side.next(room, tally).map(|_| ())
    }

    /// Any words for a place: the answer is 0 or 2, and 2 changes nothing.
    fn strange_place(&self, rng: &mut Rng) -> Result<(), String> {
        let mut place = self.place.clone();
        place[rng.below(3) as usize] = edge(rng);
        let before = place.clone();
        let mut ours = Ours::of(&self.model);
        let mut answers = [UNANSWERED; 5];
        match ours.lend().replay(&mut place, self.log, &mut answers) {
            0 => Ok(()),
            UNSOUND if place != before || answers != [UNANSWERED; 5] => Err(format!(
                "place {before:?} was refused, and changed to {place:?}"
            )),
            UNSOUND => ours.compare(&self.model),
            number => Err(format!("place {before:?} answered with {number}")),
        }
    }
}
