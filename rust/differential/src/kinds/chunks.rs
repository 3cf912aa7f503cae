use super::replay::{report, used_or_spoilt};
use crate::call::answer_of;
use crate::logs::{damage, evs_for, generated, long, LONG_EVERY};
use crate::numbers::edge;
use crate::shape::Shape;
use crate::sides::{same, Fenced, Model, Ours, ODD};
use crate::spoil::{spoil, spoil_length};
use crate::tally::Tally;
use crate::turns::move_turn;
use model::bounds::LOG_END;
use model::chunks::Taken;
use model::{Chunk, Outcome, Part, Refusal, Rng};
use nscc::{PartWord, Word, PART, PIECE, PLACE, WORDS};

/// What stands in the answers' room before a call.
const UNANSWERED: u64 = u64::MAX;
const UNSOUND: u8 = Refusal::NotTogether as u8;

pub fn run(seed: u64, tally: &mut Tally) -> Result<(), String> {
    let mut rng = Rng::new(seed);
    let (log, shape) = if seed.is_multiple_of(LONG_EVERY) {
        (long(seed), Shape::PROGRAM)
    } else {
        let records = rng.pick(&[5, 40, 600, 1_000]);
        let log = generated(&mut rng, records);
        let damaged = damage(&mut rng, &log);
        (
            if rng.one_in(3) { log } else { damaged },
            Shape::for_log(&mut rng),
        )
    };
    let evs = evs_for(&mut rng, &log);
    let start = used_or_spoilt(&mut rng, shape, evs);
    let cuts = rng.next_u64();
    tally.cases += 1;
    compare(&log, &start, cuts, tally).map_err(|difference| {
        let fails = |log: &[Vec<u8>]| {
            let replayed = compare(&log.concat(), &start, cuts, &mut Tally::default());
            replayed.is_err()
        };
        report(&log, &difference, fails)
    })
}

/// Hands the log in by chunks, and what was not taken again; between them, spoilt states, parts and
/// pieces are tried on the side, and the turn moves. At last the joined log is replayed.
fn compare(log: &[u8], start: &Model, cuts: u64, tally: &mut Tally) -> Result<(), String> {
    let mut rng = Rng::new(cuts);
    let (longest, most) = match log.len() {
        0..=2_000 => rng.pick(&[(1, 1), (6, 2), (30, 2), (70, 4), (400, 40)]),
        2_001..=99_999 => rng.pick(&[(70, 4), (1_500, 40), (1_500, 200), (1 << 16, 3_000)]),
        // A long log is handed in a few times only.
        _ => (1 << 17, 1 << 16),
    };
    let mut chunks = Chunks::new(start.clone());
    let mut answers = Vec::new();
    let mut at = 0;
    loop {
        if rng.one_in(8) {
            chunks.on_the_side(&log[at..], &mut rng, tally)?;
        }
        // Where there is a context.
        if chunks.at(PartWord::Done) > 0 && rng.one_in(8) {
            move_turn(&mut rng, &mut chunks.model);
            chunks.ours = Ours::of(&chunks.model);
        }
        let to = log.len().min(at + rng.between(0, longest) as usize);
        let ended = to == log.len() && rng.one_in(2);
        let room = rng.between(0, most) as usize;
        let bytes = &log[at..to];
        let given = chunks.next(Chunk { bytes, ended }, room, tally)?;
        at += chunks.at(PartWord::Taken) as usize;
        let all = given.len() < room && at == log.len();
        answers.extend(given);
        if ended && all {
            break;
        }
    }
    chunks.compare_joined(log, start, &answers)
}

/// A replay under way. Both sides hold the same: it is compared after every chunk.
struct Chunks {
    part: Vec<u64>,
    piece: Vec<u8>,
    ours: Ours,
    model: Model,
}

impl Chunks {
    fn new(model: Model) -> Chunks {
        Chunks {
            part: vec![0; PART],
            piece: vec![0; PIECE],
            ours: Ours::of(&model),
            model,
        }
    }

    fn at(&self, word: PartWord) -> u64 {
        self.part[word as usize]
    }

    /// Both sides take a chunk, and all is compared; the answers given.
    fn next(&mut self, chunk: Chunk, room: usize, tally: &mut Tally) -> Result<Vec<u64>, String> {
        let mut part = Fenced::new(&self.part, ODD);
        let mut piece = Fenced::new(&self.piece, ODD as u8);
        let mut answers = Fenced::new(&vec![UNANSWERED; room], ODD);
        let number = self.ours.lend().chunk(
            part.inner_mut(),
            piece.inner_mut(),
            chunk.bytes,
            chunk.ended,
            answers.inner_mut(),
        );
        let expected = self.expect(chunk, room);
        let models = expected.as_ref().err().copied().unwrap_or(0);
        if number != u32::from(models) {
            return Err(format!("answered {number}, the model {models}"));
        }
        let outcomes = expected.unwrap_or_default();
        let given: Vec<u64> = outcomes.iter().copied().map(answer_of).collect();
        let untold = vec![UNANSWERED; room - given.len()];
        same("answer", answers.inner(), &[&given[..], &untold].concat())?;
        same("word of the part", part.inner(), &self.part)?;
        same("byte of the piece", piece.inner(), &self.piece)?;
        if !(part.whole() && piece.whole() && answers.whole()) {
            return Err("memory beside what was lent was written".into());
        }
        self.ours.compare(&self.model)?;
        for outcome in outcomes {
            tally.count(outcome);
        }
        if models != 0 {
            tally.count(models.into());
        }
        Ok(given)
    }

    /// The model takes a chunk; `Err` is the number with which it refuses it.
    fn expect(&mut self, chunk: Chunk, room: usize) -> Result<Vec<Outcome>, u8> {
        let good = self.model.words.len() == WORDS;
        let part = part_of(&self.part, &self.piece).filter(|_| good);
        let mut part = part.ok_or(UNSOUND)?;
        // Before record 1 and after a stop, any words will do.
        let (mut state, mut lent) = if part.done > 0 && !part.stopped {
            self.model.lend().ok_or(UNSOUND)?
        } else {
            self.model.lend_new()
        };
        let mut answers = vec![Outcome::default(); room];
        let taken = part
            .take(&mut state, &mut lent, chunk, &mut answers)
            .map_err(Refusal::number)?;
        answers.truncate(taken.answered);
        self.part = words_of_part(&part, taken).to_vec();
        self.piece = part.piece.to_vec();
        // Before record 1 there is no state, and without an answer none is stored.
        if part.done > 0 && taken.answered > 0 {
            self.model.store(&state);
        }
        Ok(answers)
    }

    /// A copy of the replay goes on with another piece of the same log, and with something spoilt.
    fn on_the_side(&self, rest: &[u8], rng: &mut Rng, tally: &mut Tally) -> Result<(), String> {
        let held = self.at(PartWord::Piece) as usize;
        let near = &rest[..rest.len().min(400)];
        let log = [&self.piece[..held], near].concat();
        let (piece, rest) = log.split_at(rng.between(0, log.len().min(PIECE) as u64) as usize);
        let bytes = &rest[..rng.between(0, rest.len() as u64) as usize];

        let mut side = Chunks::new(self.model.clone());
        side.part.clone_from(&self.part);
        side.part[PartWord::Piece as usize] = piece.len() as u64;
        // What stands behind the piece does not matter, nor what the last call said.
        side.piece.fill_with(|| edge(rng) as u8);
        side.piece[..piece.len()].copy_from_slice(piece);
        for word in [PartWord::Answered, PartWord::Taken] {
            side.part[word as usize] = edge(rng);
        }
        for _ in 0..rng.below(3) {
            side.spoil(bytes.len() as u64, rng);
        }
        side.ours = Ours::of(&side.model);
        let ended = rng.one_in(3);
        let room = rng.pick(&[0, 1, 2, 3, 40]);
        side.next(Chunk { bytes, ended }, room, tally).map(|_| ())
    }

    /// A length, a word of the part, a byte of the piece, or something of the context.
    fn spoil(&mut self, many: u64, rng: &mut Rng) {
        match rng.below(16) {
            0 => {
                let length = rng.pick(&[0, PART - 1, PART + 1, 2 * PART]);
                self.part.resize(length, 0);
            }
            1 => {
                let length = rng.pick(&[0, PIECE - 1, PIECE + 1, 2 * PIECE]);
                self.piece.resize(length, 0);
            }
            2 => spoil_length(rng, &mut self.model),
            3..=5 => spoil(rng, &mut self.model),
            6 | 7 => self.spoil_piece(rng),
            _ => self.spoil_word(many, rng),
        }
    }

    fn spoil_piece(&mut self, rng: &mut Rng) {
        let any = edge(rng) as u8;
        let i = rng.below(self.piece.len() as u64) as usize;
        if let Some(byte) = self.piece.get_mut(i) {
            *byte = rng.pick(&[0, 1, 6, 10, 11, 16, 33, 38, 55, 59, any]);
        }
    }

    /// Often so that the log has about 2^48 bytes with a chunk of so many.
    fn spoil_word(&mut self, many: u64, rng: &mut Rng) {
        // Something may be spoilt already.
        let Ok(words): Result<&mut [u64; PART], _> = self.part.as_mut_slice().try_into() else {
            return;
        };
        let [at, _, _, held, _, _] = *words;
        let full = LOG_END.wrapping_sub(held).wrapping_sub(many);
        let most = PIECE as u64;
        let any = edge(rng);
        let (word, choices) = match rng.below(8) {
            0 => (PartWord::Stopped, [1, 1, 2, any]),
            1 => (PartWord::Piece, [most, most, most + 1, any]),
            2 => (PartWord::Done, [0, at, at.wrapping_add(1), any]),
            3 => (PartWord::At, [0, LOG_END - 1, LOG_END, any]),
            _ => (
                PartWord::At,
                [full.wrapping_sub(1), full, full, full.wrapping_add(1)],
            ),
        };
        words[word as usize] = rng.pick(&choices);
    }

    /// `nscc_replay` answers the joined log alike, and leaves the same but for the turn, which has
    /// not moved there since setting up.
    fn compare_joined(&self, log: &[u8], start: &Model, answers: &[u64]) -> Result<(), String> {
        let mut ours = Ours::of(start);
        let mut place = [0; PLACE];
        let mut joined = vec![UNANSWERED; answers.len() + 1];
        let number = ours.lend().replay(&mut place, log, &mut joined);
        if number != 0 {
            return Err(format!("the joined log was answered with {number}"));
        }
        let answers_behind = [answers, &[UNANSWERED]].concat();
        same("answer of the joined log", &joined, &answers_behind)?;
        let [at, done, stopped] =
            [PartWord::At, PartWord::Done, PartWord::Stopped].map(|word| self.at(word));
        let there = [at, done, stopped, answers.len() as u64];
        same("word of the joined log's place", &place, &there)?;
        let mut model = self.model.clone();
        if done > 0 {
            model.words[Word::Turn as usize] = 0;
        }
        ours.compare(&model)
    }
}

/// `None` for lengths that are wrong, and for a stop other than 0 and 1.
fn part_of(words: &[u64], piece: &[u8]) -> Option<Part> {
    let [offset, done, stopped, held, _, _] = *words else {
        return None;
    };
    Some(Part {
        piece: piece.try_into().ok()?,
        held,
        offset,
        done,
        stopped: match stopped {
            0 => false,
            1 => true,
            _ => return None,
        },
    })
}

fn words_of_part(part: &Part, taken: Taken) -> [u64; PART] {
    [
        part.offset,
        part.done,
        part.stopped.into(),
        part.held,
        taken.answered as u64,
        taken.bytes as u64,
    ]
}
